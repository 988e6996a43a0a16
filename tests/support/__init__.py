"""What the tests share: programs and how they are run, rows, and answers as short texts."""

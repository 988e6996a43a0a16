"""Laws that hold of all rule texts, texts, edits and maps of ids, tried on random ones. __main__.py says how to run them."""

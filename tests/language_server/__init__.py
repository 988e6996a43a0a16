"""The language server, from outside: a client that speaks the protocol, and what it tries."""

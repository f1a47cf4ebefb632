"""Commands that try the program, one a module."""

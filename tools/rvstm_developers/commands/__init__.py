"""The commands, one a module. Each is its `COMMAND`."""

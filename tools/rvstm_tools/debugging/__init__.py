"""Debugging of calls: replays of their steps, gas by functions, lines that were run, and gdb's remote protocol."""

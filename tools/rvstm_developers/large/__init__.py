"""Blocks, sessions and texts as large as the rules allow."""

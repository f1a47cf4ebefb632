"""What is measured: one command a module, and what they share."""

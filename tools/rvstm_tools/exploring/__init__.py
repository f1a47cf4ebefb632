"""Exploring of contracts: random calls by a description, what they break, and the shortest sequence that breaks it."""

"""The checks of the pages, and what is printed from the sources alone: calls, definitions, what a clause rests on."""

"""What is drawn at random: programs, blocks, sessions and words."""

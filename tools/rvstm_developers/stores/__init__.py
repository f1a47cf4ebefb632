"""Files of sessions: what they hold, and what is done to them."""

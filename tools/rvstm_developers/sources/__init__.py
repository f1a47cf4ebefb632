"""Sources of Rattle, and checks of them."""

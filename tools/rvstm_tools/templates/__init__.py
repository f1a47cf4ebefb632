"""Templates of the folder of a contract: their files, and what is put in their places."""

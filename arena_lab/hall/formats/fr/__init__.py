"""How moments are written in French."""

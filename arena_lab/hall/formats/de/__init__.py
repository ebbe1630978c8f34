"""How moments are written in German."""

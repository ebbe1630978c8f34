"""How moments are written in each language of a hall: with the name of the time zone."""

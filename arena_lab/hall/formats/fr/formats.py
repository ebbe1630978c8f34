"""Formats that Django reads by their names."""
DATETIME_FORMAT = "j F Y, H:i T"

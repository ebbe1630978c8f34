"""Formats that Django reads by their names."""
DATETIME_FORMAT = "N j, Y, H:i T"

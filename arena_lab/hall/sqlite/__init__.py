"""SQLite as the hall uses it."""

"""Searches for schedules after which a team fails."""

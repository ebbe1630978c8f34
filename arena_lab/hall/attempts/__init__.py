"""Attempts: teams ask for matches, workers play them, and pages show what may be
shown."""

"""A hall that stays up for a term: teams ask for matches, hand in programs, and are
ranked. A project of Django."""

"""Courses: programs that strangers hand in, kept apart and graded."""

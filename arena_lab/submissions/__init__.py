"""Submissions: what teams hand in, from the browser to the sandbox."""

"""Hand-ins: programs of teams, which are graded in sandboxes."""

"""Teams, the teacher, and what keeps strangers out."""

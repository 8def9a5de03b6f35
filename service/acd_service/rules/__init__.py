"""acdctl rules: the hours of groups, and what becomes of a caller where a queue has an end."""

"""acdctl webhook: an office's alarms, for a program elsewhere."""

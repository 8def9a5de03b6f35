"""The parts of one of several machines that share a log."""

"""Python imports this at its start where PYTHONPATH names the folder: coverage then counts in each process, also one that a test starts."""
import coverage

coverage.process_startup()

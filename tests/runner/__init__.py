"""The one command that runs all tests: `./test`."""

"""What the pages of docs/ are checked for: links, commands with their options, and blocks of code that nobody runs."""

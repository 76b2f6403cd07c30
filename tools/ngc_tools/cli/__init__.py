"""The words of each tool, and what it prints."""

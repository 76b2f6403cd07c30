"""A job: its moves, its picture, its parts, and what is refused or risky in it."""

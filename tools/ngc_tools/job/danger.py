"""A warning of what a valid program does that may be meant otherwise."""
from dataclasses import dataclass


@dataclass(frozen=True, slots=True)
class Danger:
    """Something dangerous: its line from 1, 0 for the program as a whole; of which kind it is; what it is and why."""

    line: int
    kind: str
    text: str

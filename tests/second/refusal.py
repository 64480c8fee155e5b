"""A refusal of the rules page."""
from __future__ import annotations

from typing import NamedTuple


class Refusal(NamedTuple):
    """The page's number, and the place, which is 0 unless the page names one."""

    number: int
    place: int = 0

    def __str__(self) -> str:
        return f"refused {self.number} {self.place}"

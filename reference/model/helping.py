"""What the program says of itself, in its own words: reference/help.json, which tools/help.py keeps."""

from __future__ import annotations

import functools
import json
import os
from typing import Dict, List

# The names of the texts that are of no command: the help of the program, and the first line of the version.
ALL_COMMANDS, VERSION = "", "version"
_FILE = os.path.join(os.path.dirname(os.path.dirname(os.path.abspath(__file__))), "help.json")


@functools.lru_cache(maxsize=None)
def _texts() -> Dict[str, List[str]]:
    with open(_FILE, encoding="utf-8") as file:
        texts: Dict[str, List[str]] = json.load(file)
    return texts


def text_of_program(name: str) -> bytes:
    """The text of the program of this name."""
    return "".join(f"{line}\n" for line in _texts()[name]).encode("utf-8")

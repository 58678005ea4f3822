"""The words of the command line. Behind `--` each word is a value, as for most programs (POSIX, Utility Syntax Guidelines); there are no flags."""
from __future__ import annotations

from typing import Optional

VALUES = {"replay": ("report", "frames", "vectors"), "drive": ("report", "schedule")}
ALONE = "keys", "node", "cluster", "submit", "watch"
USAGE = b"usage: ritas replay report|frames|vectors, drive report|schedule, keys, node, cluster, submit, watch\n"

Job = tuple[str, str]  # a command and its value, which may be empty


def values_of(words: list[str]) -> Optional[list[str]]:
    """The values among these words, or nothing where a flag is among them."""
    cut = words.index("--") if "--" in words else len(words)
    if any(word.startswith("-") and word != "-" for word in words[:cut]):
        return None
    return words[:cut] + words[cut + 1:]


def read_words(words: list[str]) -> Optional[Job]:
    """The job that the words behind the program's name say, or nothing where they say none."""
    if not words:
        return None
    name, values = words[0], values_of(words[1:])
    if name in VALUES and values is not None and len(values) == 1 and values[0] in VALUES[name]:
        return name, values[0]
    return (name, "") if name in ALONE and values == [] else None

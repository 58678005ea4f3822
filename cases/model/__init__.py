"""A model of the program: what it answers to its words and its input, worked out from docs/PROTOCOL.md and docs/FORMATS.md.

It shares no code with the program, and follows the rules on plain lists, sets and maps. `cases/check --update` records cases by it.
`python3 cases/model WORDS` stands in the program's place, but that it serves nothing: it reads the configurations of `node`, `cluster` and `submit`
only to say what is wrong with them.
"""
from .program import Unmodelled, run

__all__ = ["Unmodelled", "run"]

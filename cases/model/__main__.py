#!/usr/bin/env python3
"""The model in the place of the program: `python3 cases/model WORDS`, with the input as standard input."""
import os
import sys

sys.dont_write_bytecode = True
sys.path[0] = os.path.dirname(os.path.dirname(os.path.abspath(__file__)))
from model import Unmodelled, run  # noqa: E402


def main() -> int:
    try:
        status, output = run(sys.argv[1:], sys.stdin.buffer.read())
    except Unmodelled as fault:
        sys.exit(f"model: {fault}")
    sys.stdout.buffer.write(output)
    return status


if __name__ == "__main__":
    sys.exit(main())

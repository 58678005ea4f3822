"""What the scripts of this folder have in common: the program, by way of `serving`, and how they tell what is wrong."""
import concurrent.futures
import os
import sys

sys.path.append(os.path.join(os.path.dirname(os.path.dirname(os.path.abspath(__file__))), "examples"))
import serving  # noqa: E402


def side_by_side(answer, rows):
    """What this answers for each row, in their order. As many are asked for at a time as there are processors, so nothing here may measure time.

    It is for what starts the program, since threads of Python share one processor.
    """
    with concurrent.futures.ThreadPoolExecutor(os.cpu_count()) as workers:
        yield from workers.map(lambda row: answer(*row), rows)


def tell(rows) -> int:
    """Counts rows that start the program, which is built first where it isn't built. The result is an exit status."""
    if not serving.is_built():
        print("the program isn't built")
        return 1
    return count(rows)


def count(rows) -> int:
    """Prints each row that something is wrong with, and then how many passed. Rows are pairs of a name and what is wrong, or nothing.

    The result is an exit status.
    """
    passed = failed = 0
    for name, wrong in rows:
        passed, failed = passed + (not wrong), failed + bool(wrong)
        if wrong:
            print(f"{name}: {wrong}", flush=True)
    print(f"{passed} passed, {failed} failed")
    return 0 if passed and not failed else 1

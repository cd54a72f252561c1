#!/usr/bin/env python3
"""Runs the shell commands in the root of the repository, ./fit, ./convert, ./catalogue, ./show and ./library, as users do and as they should
not: what each prints where, its status, and what it leaves. Prints a line for each failure; exit status 1 if there is one.

script_runs.py has the checks of the real ./fit and ./convert; script_builds.py those of building, in a copy with stand-ins for rt and cargo.
"""
import sys

sys.dont_write_bytecode = True
from checking import Room  # noqa: E402
from script_builds import check_builds  # noqa: E402
from script_runs import check_runs  # noqa: E402


def main():
    passed = failed = 0
    for part in (check_runs, check_builds):
        room = Room()
        try:
            part(room)
        finally:
            room.close()
        passed, failed = passed + room.passed, failed + room.failed
    print(f"{passed} checks of the scripts passed" + (f", {failed} failed" if failed else ""))
    sys.exit(1 if failed else 0)


main()

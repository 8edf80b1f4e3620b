"""The command tools/wrong-bodies."""
from __future__ import annotations

import argparse
import os
import signal
import tempfile
import time
from collections.abc import Sequence

from .crates import crates
from .edits import FOLDERS
from .gate import all_crates
from .lacking import lacking
from .own_test import own_test
from .processes import stop


def parser_of(usage: str) -> argparse.ArgumentParser:
    """Returns the parser of the command's options."""
    parser = argparse.ArgumentParser(prog="tools/wrong-bodies", description=usage, formatter_class=argparse.RawDescriptionHelpFormatter)
    parser.add_argument("names", nargs="*", metavar="NAME")
    parser.add_argument("--folder", default="public", choices=FOLDERS)
    parser.add_argument("--all", action="store_true")
    parser.add_argument("--share", action="store_true")
    parser.add_argument("--at-once", type=int, default=len(os.sched_getaffinity(0)), help="how many crates are tried at a time; by default one a processor")
    parser.add_argument("--minutes", type=float, default=float("inf"), help="begin no check later than this; by default each mutant is tried")
    parser.add_argument("--keep", action="store_true")
    parser.add_argument("--log", default="", type=lambda it: os.path.abspath(it) if it else "")
    parser.add_argument("--own-test", action="store_true")
    parser.add_argument("--lacking", action="store_true")
    parser.add_argument("--verbose", action="store_true")
    return parser


def main(words: Sequence[str], usage: str) -> int:
    """Runs the command. `usage` is the head of its script."""
    parser = parser_of(usage)
    args = parser.parse_args(words)
    if args.log:
        os.makedirs(args.log, exist_ok=True)
    repository = crates()
    if unknown := [it for it in args.names if it not in repository]:
        parser.error(f"crates.txt has no crate {unknown[0]}")
    args.until = time.time() + 60 * args.minutes
    work = own_test if args.own_test else lacking if args.lacking else all_crates
    with tempfile.TemporaryDirectory(prefix="wrong-bodies-") as tempfile.tempdir:
        for it in (signal.SIGINT, signal.SIGTERM, signal.SIGHUP):
            signal.signal(it, stop)
        passed, failed, *left = work(repository, args)
    remark = f" ({left[0]} mutants were not tried: the time was up)" if any(left) else ""
    print(f"{passed} passed, {failed} failed{remark}")
    return 1 if failed else 0

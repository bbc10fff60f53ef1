#!/usr/bin/env python3
"""Tries the wrong bodies of the crates, crates/NAME/wrong/*.edit: the prover must refuse each of them.

Without names all are tried, and what they have to name is counted; with names those of these crates, and by CRATE/EDIT one edit. Nothing is proved where one
cannot be applied. The last line is 'N refused, M not refused'. The status is 0 where M is 0 and nothing lacks its edit. docs/gate.md says more.
"""
import argparse
import os
import sys
import tempfile
from collections import Counter
from concurrent.futures import ThreadPoolExecutor, as_completed
from pathlib import Path

from wrong_bodies import census, crates, proving


def side_by_side(lanes, edits, took):
    """Does work on edits, those of code and the turned definitions of a crate apart, side by side; gives each part as it is done, and counts what it took."""
    crates_of_edits = sorted({it.crate for it in edits}, key=lambda it: -it.size)
    parts = [[it for it in edits if it.crate is crate and it.is_turned == is_turned] for crate in crates_of_edits for is_turned in (False, True)]

    def do(part):
        with tempfile.TemporaryDirectory(prefix="wrong-bodies-") as room:
            prover = proving.Prover(part[0].crate, room)
            proving.try_edits(prover, part)
        took[part[0].crate.name] += prover.seconds
        return part

    with ThreadPoolExecutor(max(lanes, 1)) as rooms:
        for it in as_completed([rooms.submit(do, part) for part in parts if part]):
            yield it.result()


def main(words):
    parser = argparse.ArgumentParser(prog="wrong_bodies.py", description=__doc__, formatter_class=argparse.RawDescriptionHelpFormatter)
    parser.add_argument("names", metavar="CRATE", nargs="*", help="try the wrong bodies of this crate, or with CRATE/EDIT one of them")
    parser.add_argument("--count", action="store_true", help="only count, and prove nothing")
    parser.add_argument("--lanes", metavar="N", type=int, default=len(os.sched_getaffinity(0)), help="use so many processors (all)")
    parser.add_argument("--root", metavar="FOLDER", default=Path(__file__).resolve().parents[1], help="the top of the repository")
    given = parser.parse_args(words)
    repository, took = crates.Repository(given.root), Counter()
    every = [it for crate in repository.crates.values() for it in crate.edits]
    edits = [it for it in every if not given.names or it.names & {*given.names}]
    unknown = [name for name in given.names if name not in repository.crates and not any(name in it.names for it in every)]
    unknown += [] if given.count or unknown else proving.lacking_below(repository, {it.crate for it in edits})
    if unknown:
        print(f"there is no {unknown[0]}\n0 refused, 1 not refused")
        return 2
    bad = [it for it in edits if it.verdict]
    for part in [] if bad or given.count else side_by_side(given.lanes, edits, took):
        print("\n".join(map(str, part)), flush=True)
    failed = [it for it in edits if it.verdict not in ("", "refused")]
    lacks = [] if given.names or bad and not given.count else census.census(repository)
    times = [f"{name}: {sum(it.crate.name == name for it in edits)} wrong bodies, {took[name]:.0f} s of processor time" for name in took]
    print("\n".join([*times, *lacks, *map(str, failed), f"{sum(took.values()):.0f} s of processor time"]))
    print(f"{sum(it.verdict == 'refused' for it in edits)} refused, {len(failed)} not refused")
    return 1 if failed or lacks else 0


if __name__ == "__main__":
    sys.exit(main(sys.argv[1:]))

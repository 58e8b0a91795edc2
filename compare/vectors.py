#!/usr/bin/env python3
"""Answers, checks and makes requests with their answers, NAME.req and NAME.ans. See README.md."""
import argparse
import pathlib
import random
import sys

from lineform import fits, refused, write
from programs import Program
from shapes import SHAPES, refusals


def answer(oracle, data):
    """What document 01 says of any bytes: the refusals by lineform.py, the rest by the oracle."""
    return refused(data) or oracle.one(data)


def check(oracle, folder):
    """Every request has its answer beside it."""
    bad = 0
    asked = sorted(folder.glob("*.req"))
    for path in asked:
        want = path.with_suffix(".ans")
        if not want.exists() or want.read_bytes() != answer(oracle, path.read_bytes()):
            print("wrong: " + path.stem)
            bad += 1
    print("%d requests, %d wrong" % (len(asked), bad))
    return 1 if bad else 0


def make(oracle, folder, seed, count):
    """Count requests of each shape, by the seed."""
    g = random.Random(seed)
    folder.mkdir(parents=True, exist_ok=True)
    for shape, maker in [*SHAPES.items(), ("refusal", refusals)]:
        made = 0
        while made < count:
            r = maker(g)
            if fits(r):
                made += 1
                path = folder / ("%s_%d_%d.req" % (shape.replace(",", "").replace(" ", "_"), seed, made))
                path.write_bytes(write(r))
                path.with_suffix(".ans").write_bytes(answer(oracle, write(r)))
    return 0


def main():
    p = argparse.ArgumentParser(description=__doc__)
    p.add_argument("--oracle", required=True, help="command words of the oracle")
    what = p.add_subparsers(dest="what", required=True)
    what.add_parser("answer", help="the answer to the request on standard input")
    c = what.add_parser("check", help="check every NAME.req and NAME.ans of a folder")
    c.add_argument("folder", type=pathlib.Path)
    m = what.add_parser("make", help="make requests with their answers")
    m.add_argument("folder", type=pathlib.Path)
    m.add_argument("--seed", type=int, required=True)
    m.add_argument("--count", type=int, default=1, help="of each shape")
    a = p.parse_args()
    oracle = Program(a.oracle, True)
    if a.what == "answer":
        sys.stdout.buffer.write(answer(oracle, sys.stdin.buffer.read()))
        return 0
    return check(oracle, a.folder) if a.what == "check" else make(oracle, a.folder, a.seed, a.count)


if __name__ == "__main__":
    sys.exit(main())

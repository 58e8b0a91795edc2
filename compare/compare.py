#!/usr/bin/env python3
"""Compares two programs in the line form on random requests. See README.md."""
import argparse
import collections
import os
import pathlib
import random
import sys
import time

from lineform import ANSWER, check, fits, read, refused, write
from programs import Program, tell
from shapes import SHAPES, following, near, refusals


def main():
    p = argparse.ArgumentParser(description=__doc__)
    p.add_argument("--ours", required=True, help="command words of the program")
    p.add_argument("--oracle", required=True, help="command words of the oracle; it answers many requests in one run")
    p.add_argument("--ours-many", action="store_true", help="the program too answers many requests in one run")
    p.add_argument("--jobs", type=int, default=1, help="runs of the program at a time")
    p.add_argument("--count", type=int, default=1000, help="how many requests to compare")
    p.add_argument("--seed", type=int, help="default: from the clock")
    p.add_argument("--shape", action="append", choices=[*SHAPES, "refusal", "near"], help="only these shapes")
    p.add_argument("--near", type=pathlib.Path, help="a folder of requests NAME.req: a shape of requests that differ a little from them")
    p.add_argument("--calls", type=int, default=3, help="calls in a row, each from the answer to the one before")
    p.add_argument("--save", default="difference", help="folder for the first difference")
    a = p.parse_args()
    seed = a.seed if a.seed is not None else time.time_ns() % (1 << 32)
    print("seed=%d" % seed, flush=True)
    g = random.Random(seed)
    ours, oracle = Program(a.ours, a.ours_many, a.jobs), Program(a.oracle, True)
    makers = {**SHAPES, "refusal": refusals}
    if a.near:
        asked = [path.read_bytes() for path in sorted(a.near.glob("*.req"))]
        makers["near"] = near([read(data) for data in asked if len(data) < 4000 and refused(data) is None])
    shapes = a.shape or list(makers)
    compared, statuses, kinds = 0, collections.Counter(), collections.Counter()
    different = 0

    def compare(batch):
        """Compares the answers to (shape, request, bytes) and hands back the oracle's."""
        nonlocal compared, different
        wanted = [refused(data) for _, _, data in batch]
        asked = [i for i, w in enumerate(wanted) if w is None]
        for i, answer in zip(asked, oracle.all([batch[i][2] for i in asked])):
            wanted[i] = answer
        have = ours.all([data for _, _, data in batch])
        for (shape, _, data), want, got in zip(batch, wanted, have):
            if not ANSWER.fullmatch(want):
                sys.exit("the oracle's answer is none: %r\n%s" % (want[:200], data.decode("latin-1")))
            compared += 1
            kinds[shape] += 1
            statuses[int(want.split(b"\n")[0][7:])] += 1
            if got != want:
                different += 1
                if different == 1:
                    save(a.save, data, want, got)
        return wanted

    while compared < a.count:
        batch = []
        for _ in range(min(100, a.count - compared)):
            shape = g.choice(shapes)
            r = makers[shape](g)
            if not fits(r):
                continue
            if shape != "refusal" and check(r):
                sys.exit("the shape %s made a request that is refused with %d:\n%s" % (shape, check(r), write(r).decode()))
            batch.append((shape, r, write(r)))
        for call in range(a.calls):
            answers = compare(batch)
            if call + 1 == a.calls:
                break
            nexts = [following(g, read(data), w) for (_, _, data), w in zip(batch, answers) if refused(data) is None]
            batch = [("call %d in a row" % (call + 2), r, write(r)) for r in nexts if r][: max(0, a.count - compared)]
    tell("compared", compared, kinds, statuses)
    print("different=%d" % different)
    return 1 if different else 0


def save(folder, data, want, got):
    os.makedirs(folder, exist_ok=True)
    for name, content in (("request", data), ("wanted", want), ("got", got)):
        with open(os.path.join(folder, name), "wb") as f:
            f.write(content)
    print("first difference: request, wanted and got in %s/" % folder, flush=True)


if __name__ == "__main__":
    sys.exit(main())

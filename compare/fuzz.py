#!/usr/bin/env python3
"""Gives damaged requests to a program in the line form: it must print a whole answer, and the right one. See README.md."""
import argparse
import collections
import random
import sys
import time

from compare import save
from lineform import ANSWER, MOST_BYTES, fits, refused, write
from programs import Program, tell
from shapes import SHAPES, refusals

ODD = (b"\0", b"\r", b" ", b"\t", b"-", b"+", b"=", b",", b":", b";", b"/", b"0", b"9", b"\n", b"\x80", b"\xff", b"e", b"x")
NUMBERS = (0, 1, 16, 17, 64, 65, (1 << 31) - 1, 1 << 31, (1 << 31) + 1, (1 << 32) - 1, 1 << 32, (1 << 63) - 1, 1 << 63, (1 << 63) + 1, (1 << 64) - 1, 1 << 64, 10**20, 10**40)


# ---- damages: each takes a random.Random and bytes, and answers other bytes

def flip(g, s):
    i = g.randrange(len(s))
    return s[:i] + bytes((s[i] ^ 1 << g.randrange(8),)) + s[i + 1:]


def drop(g, s):
    i = g.randrange(len(s))
    return s[:i] + s[i + g.choice((1, 1, 1, 2, 5)):]


def insert(g, s):
    i = g.randint(0, len(s))
    return s[:i] + g.choice(ODD) + s[i:]


def odd(g, s):
    i = g.randrange(len(s))
    return s[:i] + g.choice(ODD) + s[i + 1:]


def cut(g, s):
    return s[:g.randrange(len(s))]


def lines_of(s):
    return s.split(b"\n")[:-1] or [b""]


def joined(lines):
    return b"".join(x + b"\n" for x in lines)


def swap_lines(g, s):
    x = lines_of(s)
    i, j = g.randrange(len(x)), g.randrange(len(x))
    x[i], x[j] = x[j], x[i]
    return joined(x)


def double_line(g, s):
    x = lines_of(s)
    i = g.randrange(len(x))
    return joined(x[:i] + [x[i]] * g.choice((2, 2, 3, 600)) + x[i + 1:])


def drop_line(g, s):
    x = lines_of(s)
    i = g.randrange(len(x))
    return joined(x[:i] + x[i + 1:])


def other_number(g, s):
    """Some number of the request becomes another one, out of its width or with a zero before it."""
    places = [i for i in range(len(s)) if s[i:i + 1].isdigit() and not s[i - 1:i].isdigit()]
    if not places:
        return s
    i = g.choice(places)
    j = i
    while s[j:j + 1].isdigit():
        j += 1
    n = str(g.choice(NUMBERS)).encode()
    return s[:i] + g.choice((n, n, n, b"0" + s[i:j], b"-" + s[i:j], b"+" + s[i:j], b"", b"-0")) + s[j:]


def other_diff(g, s):
    x = lines_of(s)
    rows = [i for i in range(len(x)) if x[i][:4] in (b"old=", b"new=", b"out=")]
    if not rows:
        return s
    i = g.choice(rows)
    x[i] = x[i].rpartition(b",")[0] + b"," + str(g.choice((1, -1)) * g.choice(NUMBERS)).encode()
    return joined(x)


def long_list(g, s):
    x = lines_of(s)
    if len(x) < 5:
        return s
    i = g.choice((2, 3, 4))
    n = g.choice((15, 16, 17, 18, 100))
    x[i] = x[i].split(b"=")[0] + b"=" + b";".join(b"%d:%d" % (j, n - j) for j in range(n)) + g.choice((b"", b"", b";", b"-"))
    return joined(x)


def carriage_returns(g, s):
    return s.replace(b"\n", b"\r\n") if g.random() < 0.3 else s.replace(b"\n", b"\r\n", g.randint(1, 5))


def follow(g, s):
    return s + g.choice((b"\n", b"\0", b"x", b"end=\n", s, b"mode=count\n", b" "))


def too_long(g, s):
    """More bytes than a request may have, or exactly as many."""
    n = MOST_BYTES + g.choice((0, 0, 1, 1, 2, 1000, 100000)) - len(s)
    filler = g.choice((b"\0", b"\n", b"9", b"new=1,1,0:0,1\n"))
    more = (filler * (n // len(filler) + 1))[:max(0, n)]
    i = g.choice((0, len(s), g.randint(0, len(s))))
    return s[:i] + more + s[i:]


def noise(g, s):
    return bytes(g.randrange(256) for _ in range(g.choice((0, 1, 2, 10, 100, 1000))))


def empty(g, s):
    return b""


DAMAGES = (flip, flip, drop, drop, insert, insert, odd, odd, cut, swap_lines, double_line, drop_line, other_number, other_number, other_diff, long_list,
           carriage_returns, follow, too_long, noise, empty)


def main():
    p = argparse.ArgumentParser(description=__doc__)
    p.add_argument("--ours", required=True, help="command words of the program")
    p.add_argument("--oracle", required=True, help="command words of the oracle, for damaged requests that are requests still")
    p.add_argument("--count", type=int, default=1000, help="how many damaged requests")
    p.add_argument("--seed", type=int, help="default: from the clock")
    p.add_argument("--save", default="difference", help="folder for the first difference")
    p.add_argument("--stand-in", action="store_true", help="the program is one that reads good requests only: give it those alone (to try this script)")
    a = p.parse_args()
    seed = a.seed if a.seed is not None else time.time_ns() % (1 << 32)
    print("seed=%d" % seed, flush=True)
    g = random.Random(seed)
    ours, oracle = Program(a.ours, False), Program(a.oracle, True)
    statuses, damages = collections.Counter(), collections.Counter()
    different = unanswered = done = 0
    while done < a.count:
        shape = g.choice(("small", "small", "few keys, many times", "pending list", "quiet", "refusal"))
        r = (refusals if shape == "refusal" else SHAPES[shape])(g)
        if not fits(r):
            continue
        data = write(r)
        for damage in g.choices(DAMAGES, k=g.choice((1, 1, 1, 2, 3))):
            if data:
                data = damage(g, data)
                damages[damage.__name__] += 1
        done += 1
        want = refused(data)
        if want is None:
            want = oracle.one(data)
            if not ANSWER.fullmatch(want):
                sys.exit("the oracle's answer is none: %r\n%s" % (want[:200], data.decode("latin-1")))
        elif a.stand_in:
            statuses[int(want.split(b"\n")[0][7:])] += 1
            continue
        got = ours.one(data)
        statuses[int(want.split(b"\n")[0][7:])] += 1
        if not ANSWER.fullmatch(got):
            unanswered += 1
        if got != want:
            different += 1
            if different == 1:
                save(a.save, data, want, got)
    tell("damaged", done, damages, statuses)
    print("unanswered=%d" % unanswered)
    print("different=%d" % different)
    return 1 if different else 0


if __name__ == "__main__":
    sys.exit(main())

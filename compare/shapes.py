"""Random requests of several shapes. Each shape takes a random.Random and answers a Request that passes the checks, but for refusals."""
from lineform import MOST_LINES, RANGE, U32, U64, Answer, Request, beyond, check, consolidated, fits, join, minimal


# ---- parts

def width(g):
    return g.choice((1, 1, 2, 3, 64, g.randint(1, 64)))


def diff(g):
    return g.choice((1, 1, 1, -1, -1, 2, -2, 3))


def keys(g, n):
    """n keys, ascending: small ones, or any of the 64 bits with both ends likely."""
    if g.random() < 0.7:
        return list(range(1, n + 1))
    found = {0, U64} if n > 1 and g.random() < 0.5 else set()
    while len(found) < n:
        found.add(g.randrange(U64 + 1))
    return sorted(found)


def axis(g, n):
    """n places of one part of a time, ascending: 0, 1, …, or spread over the 32 bits with both ends likely."""
    if g.random() < 0.7:
        return list(range(n))
    found = {0, U32} if n > 1 else {0}
    while len(found) < n:
        found.add(g.randrange(U32 + 1))
    return sorted(found)


class Grid:
    """Times of a grid of a by b places."""

    def __init__(self, g, a, b=None):
        self.g, self.xs, self.ys = g, axis(g, a), axis(g, b or a)

    def any(self):
        return self.g.choice(self.xs), self.g.choice(self.ys)

    def some(self, n):
        return [self.any() for _ in range(n)]

    def all(self):
        return [(x, y) for x in self.xs for y in self.ys]


def frontier(g, grid, most, above=None):
    ts = minimal(t for t in grid.some(g.randint(0, most)) if above is None or beyond(above, t))
    return ts[:16]


def rows(g, ts, ks, vs, ok):
    """A run over these times, with keys and values drawn from ks and vs."""
    found = {}
    for t in ts:
        if ok(t):
            found[g.choice(ks), g.choice(vs), t] = diff(g)
    return [(k, v, t, d) for (k, v, t), d in sorted(found.items())][:MOST_LINES]


def values(g, mode, n, output=False):
    if output and mode == 1:
        base = (1 << 63) + g.randint(-2, 1)
        return [base + i for i in range(n)]
    return keys(g, n)


def held_for(g, lower, upper, new, pend, extra):
    """A frontier beyond lower with a time at or below each new time and each pending time that needs one."""
    needed = [x[2] for x in new] + [t for _, t in pend if not beyond(upper, t)]
    way = g.randrange(4)
    if way == 0:
        return list(lower)
    ts = needed + ([t for t in extra if beyond(lower, t)] if way > 1 else [])
    found = minimal(ts)
    return found if len(found) <= 16 else list(lower)


def assembled(g, grid, ks, seeds, olds, outs, pends, lower, upper, mode=None):
    """A valid request: what lies outside lower and upper is left out."""
    mode = mode or g.randint(1, 2)
    vs = values(g, mode, g.randint(1, 3))
    new = rows(g, seeds, ks, vs, lambda t: beyond(lower, t) and not beyond(upper, t))
    old = rows(g, olds, ks, vs, lambda t: not beyond(lower, t))
    out = rows(g, outs, ks, values(g, mode, g.randint(1, 3), True), lambda t: not beyond(lower, t))
    pend = sorted({(g.choice(ks), t) for t in pends if beyond(lower, t)})[:MOST_LINES]
    r = Request(mode, width(g), lower, upper, held_for(g, lower, upper, new, pend, grid.some(3)), old, new, out, pend)
    return r


def bounds(g, grid):
    lower = [(0, 0)] if g.random() < 0.3 else frontier(g, grid, 3) or [(0, 0)]
    upper = frontier(g, grid, 3, lower)
    return lower, upper


# ---- shapes

def few_keys(g):
    grid = Grid(g, g.randint(3, 12))
    n = g.randint(5, 60)
    lower, upper = bounds(g, grid)
    return assembled(g, grid, keys(g, g.randint(1, 2)), grid.some(n), grid.some(n), grid.some(n // 2), grid.some(g.randint(0, 6)), lower, upper)


def antichain(g):
    n = g.randint(2, 20)
    grid = Grid(g, n)
    line = list(zip(grid.xs, reversed(grid.ys)))
    upper = [] if g.random() < 0.5 else frontier(g, grid, 2, [(0, 0)])
    return assembled(g, grid, keys(g, g.randint(1, 2)), line, [], [], grid.some(g.randint(0, 2)), [(0, 0)], upper)


def chain(g):
    n = g.randint(2, 40)
    grid = Grid(g, n)
    line = list(zip(grid.xs, grid.ys))
    cut = g.randrange(n)
    lower = [line[cut]]
    upper = [line[g.randrange(cut, n)]] if g.random() < 0.5 else []
    return assembled(g, grid, keys(g, g.randint(1, 3)), line, line, line, g.sample(line, g.randint(0, min(4, n))), lower, upper)


def whole_grid(g):
    grid = Grid(g, g.randint(2, 7), g.randint(2, 7))
    lower, upper = bounds(g, grid)
    return assembled(g, grid, keys(g, 1), grid.all(), grid.all(), grid.all(), grid.some(g.randint(0, 4)), lower, upper)


def many_keys(g):
    grid = Grid(g, g.randint(2, 4))
    lower, upper = bounds(g, grid)
    n = g.randint(20, 150)
    return assembled(g, grid, keys(g, n), grid.some(2 * n), grid.some(n), grid.some(n), grid.some(n // 4), lower, upper)


def pending(g):
    grid = Grid(g, g.randint(3, 9))
    lower, upper = bounds(g, grid)
    n = g.randint(5, 60)
    return assembled(g, grid, keys(g, g.randint(1, 5)), grid.some(g.randint(0, 4)), grid.some(10), grid.some(10), grid.some(n), lower, upper)


def small(g):
    grid = Grid(g, g.randint(2, 4))
    lower, upper = bounds(g, grid)
    a, b, c, d = (g.randint(0, 5) for _ in range(4))
    return assembled(g, grid, keys(g, g.randint(1, 3)), grid.some(a), grid.some(b), grid.some(c), grid.some(d), lower, upper)


def cancelling(g):
    """Edits of the past that cancel once they are joined with the meet: of the input they vanish, of the output they do not."""
    grid = Grid(g, g.randint(4, 6))
    x = grid.xs[g.randint(2, len(grid.xs) - 2)]
    lower = [(x, 0)]
    upper = [] if g.random() < 0.6 else frontier(g, grid, 2, lower)
    r = assembled(g, grid, keys(g, g.randint(1, 2)), grid.some(g.randint(1, 6)), [], [], grid.some(g.randint(0, 2)), lower, upper)
    past = [i for i in grid.xs if i < x]

    def pairs(vs):
        found = []
        for _ in range(g.randint(1, 4)):
            k, v, y, d = g.choice([x[0] for x in r.new] or [1]), g.choice(vs), g.choice(grid.ys), diff(g)
            i, j = g.sample(past, 2)
            found += [(k, v, (i, y), d), (k, v, (j, y), -d)]
        return consolidated(found)

    r.old = pairs(sorted({x[1] for x in r.new}) or [1])
    r.out = pairs(values(g, r.mode, 2, True))
    return r


def joins_of_joins(g):
    """One key, a handful of records in every part, an upper frontier in the middle."""
    grid = Grid(g, g.randint(4, 12))
    lower = minimal(grid.some(g.randint(1, 3)))
    upper = minimal(t for t in grid.some(g.randint(1, 2)) if beyond(lower, t))
    a, b, c, d = (g.randint(*n) for n in ((2, 8), (0, 5), (0, 5), (0, 1)))
    return assembled(g, grid, [1], grid.some(a), grid.some(b), grid.some(c), grid.some(d), lower, upper)


def tiles(g):
    """Frontiers of several times, of which upper and held share some with lower."""
    n = g.randint(3, 8)
    grid = Grid(g, n)
    lower = list(zip(grid.xs, reversed(grid.ys)))
    upper = minimal(g.sample(lower, g.randint(0, n - 1)) + [t for t in grid.some(g.randint(0, 2)) if beyond(lower, t)])
    r = assembled(g, grid, keys(g, g.randint(1, 2)), grid.some(g.randint(1, 3 * n)), grid.some(4), grid.some(4), grid.some(2), lower, upper)
    r.held = minimal(r.held + g.sample(lower, g.randint(0, n)) + [t for t in grid.some(2) if beyond(lower, t)])
    return r


def quiet(g):
    r = small(g)
    r.new, r.pend = [], [p for p in r.pend if beyond(r.upper, p[1])]
    r.held = minimal(t for t in r.held if beyond(r.upper, t))
    return r


def unchanged(g):
    r = small(g)
    r.new, r.pend = [], []
    return r


def large_sums(g):
    """Diffs at the ends of their range, and output that adds up past it, so that corrections may leave it (19)."""
    r = small(g)
    for name in ("old", "new", "out"):
        setattr(r, name, [(k, v, t, g.choice((RANGE, -RANGE, RANGE - 1, 1 - RANGE, d))) for k, v, t, d in getattr(r, name)])
    if g.random() < 0.5:
        n = g.randint(1, 3)
        sign = g.choice((1, -1))
        r = Request(r.mode, r.width, [(0, n)], [], [(0, n)])
        r.out = [(7, 1, (0, i), sign * (RANGE if i == 0 else g.choice((1, RANGE - 1, RANGE)))) for i in range(n)]
        r.pend = [(7, (0, n))]
    return r


def limits(g):
    """Requests at and past the limits of 18 and 19: moments, pended times of a key and in all, the next frontier, corrections."""
    r = Request(g.randint(1, 2), width(g), [(0, 0)], [], [(0, 0)])
    way = g.randrange(5)
    if way == 0:  # n seeds that make n(n + 1)/2 moments
        n = g.choice((44, 45, 46))
        r.new = [(7, 1, (i, n - 1 - i), 1) for i in range(n)]
    elif way == 1:  # a next frontier of n times
        n = g.choice((15, 16, 17))
        r.upper = [(1, 1)]
        r.pend = [(7, (1 + i, n - i)) for i in range(n)]
    elif way == 2:  # a by b pended times of one key
        a, b = g.choice(((32, 32), (25, 41), (205, 5), (31, 33)))
        r.lower = r.held = [(1, 0)]
        r.upper = [(1, 1000)]
        r.old = [(7, 1, (0, 1000 + i), 1) for i in range(a)]
        r.new = [(7, 1, (1 + i, 0), 1) for i in range(b)]
    elif way == 3:  # 4,096 pended times in all, and perhaps one more
        ks = range(4)
        r.lower = r.held = [(1, 0)]
        r.upper = [(1, 1000)]
        r.old = [(k, 1, (0, 1000 + i), 1) for k in ks for i in range(32)]
        r.new = [(k, 1, (1 + i, 0), 1) for k in ks for i in range(32)]
        r.pend = [(9, (1, 1000))] * g.randint(0, 1)
    else:  # many corrections: each moment of a count takes one value back and writes another
        n = g.choice((42, 43, 44))
        r.mode = 1
        r.new = sorted((k, 1, (i, n - 1 - i), 1) for k in (1, 2) for i in range(n)) + [(3, 1, (i, 20 - i), 1) for i in range(g.randint(15, 21))]
    return r


SHAPES = {
    "small": small,
    "few keys, many times": few_keys,
    "antichain": antichain,
    "chain": chain,
    "grid": whole_grid,
    "many keys": many_keys,
    "pending list": pending,
    "cancelling edits": cancelling,
    "joins of joins": joins_of_joins,
    "tiles": tiles,
    "quiet": quiet,
    "nothing changed": unchanged,
    "large sums": large_sums,
    "limits": limits,
}


def near(requests):
    """The shape of requests that differ a little from one of these: a record dropped, moved, or put at another time."""

    def shape(g):
        while True:
            r = g.choice(requests).copy()
            ts = r.lower + r.upper + r.held + [x[2] for x in r.old + r.new + r.out] + [t for _, t in r.pend]
            for _ in range(g.randint(1, 3)):
                name = g.choice(("old", "new", "out", "pend"))
                column = getattr(r, name)
                if not column:
                    continue
                x = g.choice(column)
                t = g.choice((g.choice(ts), join(g.choice(ts), g.choice(ts)), (g.choice(ts)[0], g.choice(ts)[1])))
                moved = (x[0], t) if name == "pend" else (*x[:2], t, diff(g))
                kept = [y for y in column if y != x or g.random() < 0.4]
                setattr(r, name, sorted({**{y[:-1] if name != "pend" else y: y for y in kept}, moved[:-1] if name != "pend" else moved: moved}.values()) if g.random() < 0.7 else kept)
            r.width = width(g)
            if fits(r) and not check(r):
                return r

    return shape


def following(g, r, answer):
    """The call after r: it begins at r's upper, and takes r's pended list, frontier and corrections. None where there is none to make."""
    a = Answer(answer)
    if a.status > 2 or not r.upper:
        return None
    pend = r.pend if a.status == 1 else a.pend
    lower = r.upper
    grid = Grid(g, g.randint(3, 6))
    upper = minimal(join(t, g.choice(lower)) for t in grid.some(g.randint(0, 2)))
    ks = sorted({x[0] for x in r.old + r.new + r.out} | {k for k, _ in pend}) or [1]
    new = rows(g, [join(t, g.choice(lower)) for t in grid.some(g.randint(0, 6))], ks, sorted({x[1] for x in r.old + r.new}) or [1], lambda t: not beyond(upper, t))
    held = minimal(a.frontier + [x[2] for x in new])
    q = Request(r.mode, width(g), lower, upper, held if len(held) <= 16 else lower)
    q.old, q.new, q.pend = consolidated(r.old + r.new), new, pend
    q.out = consolidated(r.out + [f[1:] for f in a.fixes])
    return q if fits(q) and not check(q) else None


# ---- refusals

def broken(g, r, status):
    """r changed so that the check of this status fails; a lower check may fail as well."""
    r = r.copy()
    if status == 11:
        r.width = g.choice((0, 65, 66, 1 << 32, U64))
    elif status == 12:
        name = g.choice(("lower", "upper", "held"))
        t = g.choice(getattr(r, name) or [(1, 1)])
        setattr(r, name, g.choice(([t, t], [t, (t[0], min(U32, t[1] + 1))], [(3, 1), (1, 3)])))
    elif status == 13:
        r.lower = [(2, 2)] if r.lower == [(0, 0)] else r.lower
        setattr(r, g.choice(("upper", "held")), [(0, 0)])
    elif status == 14:
        name = g.choice(("old", "new", "out"))
        run = list(getattr(r, name)) or [(1, 1, (0, 0), 1)]
        i = g.randrange(len(run))
        k, v, t, d = run[i]
        way = g.randrange(3)
        run[i] = (k, v, t, g.choice((0, RANGE + 1, -RANGE - 1, (1 << 63) - 1, -(1 << 63))) if way == 0 else d)
        run = run + [run[i]] if way == 1 else run[::-1] + [run[0]] if way == 2 else run
        setattr(r, name, run)
    elif status == 15:
        pend = r.pend or [(1, (0, 0))]
        r.pend = g.choice((pend + [pend[-1]], pend[::-1] + [pend[0]], [pend[-1]] + pend))
    elif status == 16:
        way = g.randrange(3)
        if way == 0:
            name = g.choice(("old", "out"))
            at = g.choice(r.lower or [(0, 0)])
            setattr(r, name, sorted(getattr(r, name) + [(9, 9, at, 1)]))
        elif way == 1:
            r.new = sorted(r.new + [(9, 9, g.choice(r.upper or [(0, 0)]), 1)])
        else:
            r.pend = sorted(set(r.pend + [(9, (0, 0))]))
    elif status == 17:
        r.held = [t for t in r.held if g.random() < 0.3]
        if not r.held and r.lower:
            r.held = [(U32, U32)] if not r.upper else r.upper[-1:]
    return r


REFUSALS = range(11, 18)


def refusals(g):
    r = g.choice((small, few_keys, pending))(g)
    return broken(g, r, g.choice(REFUSALS))

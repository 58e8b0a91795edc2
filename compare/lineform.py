"""The line form, read and written by plain rules, and the checks 11 to 17. It shares no code with the program or with the oracle."""
import re

MOST_BYTES = 65536
MOST_LINES = 512
MOST_TIMES = 16
MOST_RECORDS = 4096
U32 = (1 << 32) - 1
U64 = (1 << 64) - 1
I64 = (1 << 63) - 1
RANGE = 1 << 31
KINDS = ("old", "new", "out", "pend")


class Request:
    """Times are pairs, lists of times are lists of pairs; old, new and out hold (key, value, time, diff), pend holds (key, time)."""

    def __init__(self, mode=1, width=1, lower=(), upper=(), held=(), old=(), new=(), out=(), pend=()):
        self.mode, self.width = mode, width
        self.lower, self.upper, self.held = list(lower), list(upper), list(held)
        self.old, self.new, self.out, self.pend = list(old), list(new), list(out), list(pend)

    def copy(self):
        return Request(self.mode, self.width, self.lower, self.upper, self.held, self.old, self.new, self.out, self.pend)


class Bad(Exception):
    """The number of the first bad or missing line."""


# ---- reading

NUMBER = re.compile(rb"0|[1-9][0-9]{0,19}")
SIGNED = re.compile(rb"0|-?[1-9][0-9]{0,19}")


def number(text, most):
    if not NUMBER.fullmatch(text) or int(text) > most:
        raise ValueError
    return int(text)


def signed(text):
    if not SIGNED.fullmatch(text) or not -I64 - 1 <= int(text) <= I64:
        raise ValueError
    return int(text)


def time(text):
    a, b = text.split(b":")
    return number(a, U32), number(b, U32)


def times(text):
    if text == b"-":
        return []
    parts = text.split(b";")
    if len(parts) > MOST_TIMES:
        raise ValueError
    return [time(p) for p in parts]


def mode(text):
    return {b"count": 1, b"distinct": 2}[text]


def row(text):
    k, v, t, d = text.split(b",")
    return number(k, U64), number(v, U64), time(t), signed(d)


def pair(text):
    k, t = text.split(b",")
    return number(k, U64), time(t)


def read(data):
    """The request, or Bad."""
    if len(data) > MOST_BYTES:
        raise Bad(0)
    pieces = data.split(b"\n")
    lines = pieces[:-1]  # what stands after the last line feed is no line

    def part(n, name, reader):
        try:
            head, rest = lines[n - 1][: len(name)], lines[n - 1][len(name):]
            if head != name:
                raise ValueError
            return reader(rest)
        except (ValueError, KeyError, IndexError):
            raise Bad(n) from None

    r = Request()
    r.mode = part(1, b"mode=", mode)
    r.width = part(2, b"width=", lambda text: number(text, U64))
    r.lower, r.upper, r.held = (part(n, name, times) for n, name in ((3, b"lower="), (4, b"upper="), (5, b"held=")))
    n, kind = 6, 0
    while True:
        if n > len(lines):
            raise Bad(n)
        line = lines[n - 1]
        if line == b"end=":
            if n < len(lines) or pieces[-1]:
                raise Bad(n + 1)
            return r
        name = line.split(b"=")[0].decode("latin-1")
        if name not in KINDS or KINDS.index(name) < kind:
            raise Bad(n)
        kind = KINDS.index(name)
        column = getattr(r, name)
        if len(column) == MOST_LINES:
            raise Bad(n)
        column.append(part(n, name.encode() + b"=", pair if name == "pend" else row))
        n += 1


# ---- writing

def show_time(t):
    return "%d:%d" % t


def show_times(ts):
    return ";".join(map(show_time, ts)) or "-"


def write(r):
    s = ["mode=" + ("count", "distinct")[r.mode - 1], "width=%d" % r.width]
    s += [name + "=" + show_times(getattr(r, name)) for name in ("lower", "upper", "held")]
    for name in KINDS[:3]:
        s += ["%s=%d,%d,%s,%d" % (name, k, v, show_time(t), d) for k, v, t, d in getattr(r, name)]
    s += ["pend=%d,%s" % (k, show_time(t)) for k, t in r.pend]
    return ("\n".join(s) + "\nend=\n").encode()


def fits(r):
    """Whether the line form has room for the request."""
    return all(len(getattr(r, name)) <= MOST_LINES for name in KINDS) and len(write(r)) <= MOST_BYTES


# ---- times and frontiers

def le(s, t):
    return s[0] <= t[0] and s[1] <= t[1]


def join(s, t):
    return max(s[0], t[0]), max(s[1], t[1])


def beyond(frontier, t):
    return any(le(e, t) for e in frontier)


def minimal(ts):
    ts = sorted(set(ts))
    return [t for t in ts if not any(u != t and le(u, t) for u in ts)]


def is_frontier(ts):
    return len(ts) <= MOST_TIMES and all(s < t and not le(s, t) for s, t in zip(ts, ts[1:])) and ts == minimal(ts)


def consolidated(rows):
    sums = {}
    for k, v, t, d in rows:
        sums[k, v, t] = sums.get((k, v, t), 0) + d
    return [(k, v, t, d) for (k, v, t), d in sorted(sums.items()) if d]


# ---- checks

def ascends(xs):
    return all(x < y for x, y in zip(xs, xs[1:]))


def check(r):
    """The lowest of 11 to 17 whose row of the table holds, or 0."""
    runs = (r.old, r.new, r.out)
    if r.mode not in (1, 2) or not 1 <= r.width <= 64 or any(len(x) > MOST_RECORDS for x in runs + (r.pend,)):
        return 11
    if not all(map(is_frontier, (r.lower, r.upper, r.held))):
        return 12
    if not all(beyond(r.lower, t) for t in r.upper + r.held):
        return 13
    if not all(ascends([x[:3] for x in run]) and all(x[3] and abs(x[3]) <= RANGE for x in run) for run in runs):
        return 14
    if not ascends(r.pend):
        return 15
    if any(beyond(r.lower, x[2]) for x in r.old + r.out):
        return 16
    if any(not beyond(r.lower, x[2]) or beyond(r.upper, x[2]) for x in r.new) or any(not beyond(r.lower, t) for _, t in r.pend):
        return 16
    if any(not beyond(r.upper, t) and not beyond(r.held, t) for t in [x[2] for x in r.new] + [t for _, t in r.pend]):
        return 17
    return 0


# ---- answers

def refusal(status, line=None):
    return ("status=%d\n" % status + ("" if line is None else "line=%d\n" % line) + "end=\n").encode()


def refused(data):
    """The whole answer if the request is refused with 20 or 11 to 17, else None."""
    try:
        status = check(read(data))
    except Bad as bad:
        return refusal(20, bad.args[0])
    return refusal(status) if status else None


class Answer:
    """The fixes (tile, key, value, time, diff), the pended entries and the next frontier of an answer."""

    def __init__(self, data):
        lines = data.decode().splitlines()
        self.status = int(lines[0].split("=")[1])
        self.fixes, self.pend, self.frontier = [], [], []
        for line in lines[1:]:
            name, text = line.split("=")
            if name == "fix":
                place, k, v, t, d = text.encode().split(b",")
                self.fixes.append((int(place), int(k), int(v), time(t), int(d)))
            elif name == "pend":
                self.pend.append(pair(text.encode()))
            elif name == "frontier":
                self.frontier = times(text.encode())


ANSWER = re.compile(
    rb"status=(?:20\nline=(?:0|[1-9][0-9]*)\n|1[1-9]\n|[012]\ncrossings=(?:0|[1-9][0-9]*)\n(?:tile=[-0-9:;/]+\n)*(?:fix=[-0-9:,]+\n)*(?:pend=[0-9:,]+\n)*frontier=[-0-9:;]+\n)end=\n"
)

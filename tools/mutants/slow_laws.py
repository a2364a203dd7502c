"""A slow model of what the laws speak of: a set as a length and a set of positions, in the words of specs/.

wrong_laws evaluates the laws over it. Nothing here is made from the specs or from the sources.
"""
import dataclasses
import json as texts


@dataclasses.dataclass(frozen=True)
class Bits:
    """A length, and the positions below it."""
    length: int
    positions: frozenset

    @property
    def ascending(self):
        return sorted(self.positions)


def bits(length, *positions):
    return having(length, set(positions).__contains__)


def having(length, test):
    return Bits(length, frozenset(p for p in range(length) if test(p)))


def contains(v, p):
    return p in v.positions


def empty(length):
    return bits(length)


def insert(v, p):
    return bits(v.length, *v.positions, p)


def complement(v):
    return having(v.length, lambda p: not contains(v, p))


def size(v):
    return len(v.positions)


def equal(v, w):
    return v == w


def is_full(v):
    return all(contains(v, p) for p in range(v.length))


def minimum(v):
    return min(v.positions, default=None)


def maximum(v):
    return max(v.positions, default=None)


# ---- two sets

def union(v, w):
    return bits(max(v.length, w.length), *v.positions, *w.positions)


def intersection(v, w):
    return bits(v.length, *(v.positions & w.positions))


def difference(v, w):
    return bits(v.length, *(v.positions - w.positions))


def symmetric_difference(v, w):
    return bits(max(v.length, w.length), *(v.positions ^ w.positions))


def bitand(v, w):
    return bits(min(v.length, w.length), *(v.positions & w.positions))


def is_subset(v, w):
    return v.positions <= w.positions


def is_disjoint(v, w):
    return not v.positions & w.positions


# ---- ranges and parts

def count_ones(v, start, end):
    return sum(contains(v, p) for p in range(start, end))


def count_zeroes(v, start, end):
    return sum(not contains(v, p) for p in range(start, end))


def toggle_range(v, start, end):
    return having(v.length, lambda p: contains(v, p) != (start <= p < end))


def part(v, start, end):
    """What specs/ calls `slice`."""
    return having(max(end - start, 0), lambda p: contains(v, start + p))


def append(v, w):
    return bits(v.length + w.length, *v.positions, *(v.length + p for p in w.positions))


def has_room(v, count, p):
    return p + count <= v.length and not any(contains(v, q) for q in range(p, p + count))


def runs(v):
    starts = [p for p in v.ascending if p - 1 not in v.positions]
    ends = [p + 1 for p in v.ascending if p + 1 not in v.positions]
    return list(zip(starts, ends))


def rank(v, p):
    return count_ones(v, 0, p)


def select(v, k):
    return dict(enumerate(v.ascending)).get(k)


# ---- words, numbers and steps

def number_at(v, start, width):
    return sum(2 ** (p - start) for p in v.positions if start <= p < start + width)


def store(v, start, width, number):
    return having(v.length, lambda p: bool(number >> p - start & 1) if start <= p < start + width else contains(v, p))


def words_needed(n):
    return -(-n // 64)


def storage_words(n):
    return 4 * -(-words_needed(n) // 4)


def words(v):
    return [number_at(v, 64 * k, 64) for k in range(words_needed(v.length))]


def of_words(n, row):
    return having(n, lambda p: p // 64 < len(row) and bool(row[p // 64] >> p % 64 & 1))


def lane_steps(m):
    return -(-m // 4)


def less(n, m):
    """What specs/ calls `n - m`: 0 where m is greater."""
    return max(n - m, 0)


def range_words(start, end):
    return len({p // 64 for p in range(start, end)})


def search_steps(start, end):
    whole = less(end // 64, -(-start // 64))
    return lane_steps(whole) + less(range_words(start, end), whole)


def join_steps(keep, n, m):
    return lane_steps(min(n, m)) + (0 if keep else lane_steps(less(n, m)))


def join_up_steps(n, m, by):
    first = min(by % 64, 1)
    return min(first, less(n, by // 64), m) + lane_steps(min(less(less(n, by // 64), first), m))


def most_steps(n, m):
    return min(n, m) // 4 + 3 + (max(n, m) - min(n, m)) // 4 + 3


# ---- pieces

def are_cuts(v, cuts):
    return sorted([0, *cuts, v.length]) == [0, *cuts, v.length]


def pieces(v, cuts, further=0):
    """The slices of v between the cuts, each up to so many positions behind its cut."""
    return [part(v, start, cut + further) for start, cut in zip([0, *cuts], cuts)] + [part(v, [0, *cuts][-1], v.length)]


def put_together(sets):
    whole = empty(0)
    for it in sets:
        whole = append(whole, it)
    return whole


def by_pieces(f, v, w, cuts):
    return [f(one, other) for one, other in zip(pieces(v, cuts), pieces(w, cuts))]


def placed(v, cuts):
    return list(zip([0, *cuts], pieces(v, cuts)))


def lies_in(p, at):
    return at[0] <= p < at[0] + at[1].length


def found(f, v, cuts):
    return [start + f(piece) for start, piece in placed(v, cuts) if f(piece) is not None]


# ---- the JSON form

def octets(v):
    return [number_at(v, 8 * j, 8) for j in range(8 * words_needed(v.length))]


def of_octets(n, row):
    return having(n, lambda p: p // 8 < len(row) and bool(row[p // 8] >> p % 8 & 1))


def written(v):
    return {"data": octets(v), "length": v.length}


def json_text(v):
    return f'{{"data":[{",".join(map(str, octets(v)))}],"length":{v.length}}}'


def compact_text(d):
    return texts.dumps(d, separators=(",", ":"), sort_keys=True)


def fault(d):
    """The first error of an object, if it has one of these."""
    missing = [name for key, name in (("length", "NoLength"), ("data", "NoData")) if key not in d]
    return [*missing, *["Key"] * (len(d) != 2), None][0]


def meaning(d):
    return fault(d) or of_octets(d["length"], d["data"])


# ---- data-flow problems

def solves(edges, gens, kills, ins, outs, over=all):
    """Whether these sets solve the equations over all paths, or over `any`."""
    return all(contains(ins[v], p) == over(contains(outs[u], p) for u, w in edges if w == v)
               and contains(outs[v], p) == (contains(gens[v], p) or contains(ins[v], p) and not contains(kills[v], p))
               for v in range(len(gens)) for p in range(gens[v].length))


def least(edges, gens, kills):
    """The least solution over any path."""
    ins, outs = [empty(gen.length) for gen in gens], gens
    while not solves(edges, gens, kills, ins, outs, any):
        ins = [having(gen.length, lambda p: any(contains(outs[u], p) for u, w in edges if w == v)) for v, gen in enumerate(gens)]
        outs = [union(gen, difference(came, kill)) for gen, came, kill in zip(gens, ins, kills)]
    return ins, outs


def lost(gens, kills):
    return [difference(kill, gen) for gen, kill in zip(gens, kills)]


def complements(two):
    """Of the sets before the nodes and of those behind them."""
    return [[complement(v) for v in sets] for sets in two]


# ---- calls of an iterator

def called(items, ends):
    """What comes from the front, what is left, and what comes from the back, in the order of the calls."""
    left, front, back = list(items), [], []
    for end in ends:
        if left and end == "f":
            front.append(left.pop(0))
        elif left:
            back.append(left.pop())
    return front, left, back


def first_call(row):
    """The turns that the first call from the front of an iterator over these words makes, and how many of the words between
    their ends it takes."""
    turns, taken, word, between = 1, 0, row[0], list(row[1:-1])
    while not word and between:
        word = between.pop(0)
        turns, taken = turns + 1, taken + 1
    return turns, taken


# ---- the program, in a few of its commands

F6, F7, F8 = "F6 no memory", "F7 length above the limit", "F8 not a command"
LIMIT = 1_000_000


def command_of(line):
    """The word of a line and its numbers and letters, or None where it is no command of these."""
    word, *arguments = line.split(" ")
    if word == "ones" and len(arguments) == 2 and arguments[0].isdigit() and set(arguments[1]) in ({"f"}, {"b"}, {"f", "b"}):
        return word, int(arguments[0]), arguments[1]
    counts = {"len": 1, "grow": 2, "insert": 2, "extend": max(len(arguments), 1)}
    if len(arguments) != counts.get(word) or not all(it.isdigit() for it in arguments):
        return None
    return word, *map(int, arguments)


def line_of(command):
    return " ".join(map(str, command))


def step(sets, line, is_refused=False):
    """The reply to a line and the sets that it leaves, where memory may be refused to it."""
    word, k, *others = command_of(line) or (None, None)
    sets = list(sets)
    if word is None:
        return F8, sets
    if word in ("grow", "extend") and is_refused:
        return F6, sets
    if word == "grow":
        sets[k] = union(sets[k], empty(others[0]))
    if word == "insert":
        sets[k] = insert(sets[k], others[0])
    for item in others if word == "extend" else ():
        if item >= LIMIT:
            return F7, sets
        sets[k] = union(sets[k], bits(item + 1, item))
    return str(sets[k].length) if word == "len" else "ok", sets


def lines_of(text):
    return text.removesuffix("\n").split("\n") if text else []


def output(text, refused=()):
    """What is written for an input, where memory is refused to the lines of these numbers."""
    sets, replies = [empty(0)] * 16, []
    for number, line in enumerate(lines_of(text)):
        reply, sets = step(sets, line, number in refused)
        replies.append(f"{reply}\n")
    return "".join(replies)

"""What a set answers, by Python's integers: a set is a length and an integer whose bits are its positions."""
import struct

LENGTHS = [0, 1, 7, 8, 9, 63, 64, 65, 255, 256, 257, 960, 961, 1024, 1025, 5000, 100000]


class Set:
    def __init__(self, length, ones):
        self.length, self.ones = length, ones

    def positions(self):
        return [p for p, digit in enumerate(reversed(bin(self.ones)[2:])) if digit == "1"]

    def bytes(self):
        return self.ones.to_bytes((self.length + 7) // 8, "little")

    def gaps(self):
        return Set(self.length, mask(0, self.length) ^ self.ones).runs()

    def runs(self):
        found = []
        for p in self.positions():
            if found and found[-1][1] == p:
                found[-1][1] = p + 1
            else:
                found.append([p, p + 1])
        return found

    def text(self):
        items = (str(a) if b - a == 1 else f"{a}-{b - 1}" for a, b in self.runs())
        return "{" + ",".join(items) + "}/" + str(self.length)

    def hex(self):
        return f"x:{self.bytes().hex()}/{self.length}"

    def auto(self):
        runs, end = self.text(), f"/{self.length}"
        return runs if len(runs) <= max(100 + len(end), len(self.hex())) else self.hex()

    def words(self):
        return [self.ones >> at & (1 << 64) - 1 for at in range(0, self.length, 64)]

    def key(self):
        return self.length, self.words()

    def digits(self):
        return bin(self.ones)[2:].zfill(self.length)[::-1][: self.length]


def draw(rng):
    length = rng.choice(LENGTHS[:15] * 6 + LENGTHS)
    kind = rng.randrange(6)
    if kind == 0:
        ones = 0
    elif kind == 1:
        ones = (1 << length) - 1
    elif kind == 2:
        ones = sum({1 << rng.randrange(length) for _ in range(rng.randrange(12))}) if length else 0
    elif kind == 3:
        ones = 0
        for _ in range(rng.randrange(6)):
            a, b = sorted((rng.randint(0, length), rng.randint(0, length)))
            ones |= (1 << b) - (1 << a)
    else:
        ones = rng.getrandbits(length) if length else 0
        if kind == 5:
            ones &= rng.getrandbits(length) & rng.getrandbits(length) if length else 0
    return Set(length, ones)


def mask(a, b):
    return (1 << b) - (1 << a)


def next_of(ones, length, start):
    rest = ones >> start << start if start < length else 0
    return (rest & -rest).bit_length() - 1 if rest else None


def previous_of(ones, below):
    return (ones & mask(0, below)).bit_length() - 1 if ones & mask(0, below) else None


def wrong(code):
    return ("error", code)


def below(s, p, ones):
    return Set(s.length, ones()) if 0 <= p < s.length else wrong("2202E")


def ranged(s, a, b, answer):
    return answer(mask(a, b)) if 0 <= a <= b <= s.length else wrong("2202E")


def around(s, p, zero, back):
    ones = mask(0, s.length) ^ s.ones if zero else s.ones
    p = max(p, 0)
    return previous_of(ones, min(p, s.length)) if back else next_of(ones, s.length, p)


def gap(s, count, start):
    if count < 0:
        return wrong("22003")
    if count == 0:
        return start if start <= s.length else None
    return next((max(x, start) for x, y in s.gaps() if y - max(x, start) >= count), None)


def aligned_gap(s, count, align, start, end):
    return next((p for p in range(start, end - count + 1)
                 if (p % align if align else p) == 0 and not s.ones & mask(p, p + count)), None)


def long(length, ones):
    return Set(length, ones & mask(0, length)) if length <= 2**32 - 64 else wrong("54000")


def moved(s, by, ones):
    return Set(s.length, ones(by) & mask(0, s.length)) if by >= 0 else wrong("22003")


def up(ones, by):
    """Past 200,000 nothing is left of any set here."""
    return ones << min(by, 200000)


def is_number(s, start, width):
    return 0 <= width <= 64 and 0 <= start <= s.length - width


def loaded(s, start, width):
    if not is_number(s, start, width):
        return wrong("2202E")
    number = s.ones >> start & mask(0, width)
    return number - (number >> 63 << 64)


def stored(s, start, width, number):
    if not is_number(s, start, width):
        return wrong("2202E")
    return Set(s.length, s.ones & ~mask(start, start + width) | (number & mask(0, width)) << start)


def written(s, t, a, b, at):
    if not (0 <= a <= b <= t.length and 0 <= at <= s.length - (b - a)):
        return wrong("2202E")
    return Set(s.length, s.ones & ~mask(at, at + b - a) | (t.ones & mask(a, b)) >> a << at)


def sign(a, b):
    return (a > b) - (a < b)


def told(answer):
    """An answer as it is compared: a set as text and as binary."""
    if isinstance(answer, Set):
        return answer.text(), struct.pack(">q", answer.length) + answer.bytes()
    return answer


def join(sets, operation):
    ones = sets[0].ones
    for s in sets[1:]:
        ones = operation(ones, s.ones)
    return ones


def least_of(sets):
    return [Set(0, s.ones & -s.ones) for s in sets]


def without_length(ones):
    return Set(ones.bit_length(), ones) if ones else None


# The expression, and its answer of sets s and t, a position p and a range from a to b.
CALLS = {
    "s | t": lambda s, t, p, a, b: Set(max(s.length, t.length), s.ones | t.ones),
    "s & t": lambda s, t, p, a, b: Set(min(s.length, t.length), s.ones & t.ones),
    "s # t": lambda s, t, p, a, b: Set(max(s.length, t.length), s.ones ^ t.ones),
    "s - t": lambda s, t, p, a, b: Set(s.length, s.ones & ~t.ones),
    "~s": lambda s, t, p, a, b: Set(s.length, mask(0, s.length) ^ s.ones),
    "s @> t": lambda s, t, p, a, b: t.ones & ~s.ones == 0,
    "s <@ t": lambda s, t, p, a, b: s.ones & ~t.ones == 0,
    "s && t": lambda s, t, p, a, b: s.ones & t.ones != 0,
    "s @> p": lambda s, t, p, a, b: p >= 0 and s.ones >> p & 1 == 1,
    "p <@ s": lambda s, t, p, a, b: p >= 0 and s.ones >> p & 1 == 1,
    "s | p": lambda s, t, p, a, b: below(s, p, lambda: s.ones | 1 << p),
    "s - p": lambda s, t, p, a, b: below(s, p, lambda: s.ones & ~(1 << p)),
    "s @> positions(t)": lambda s, t, p, a, b: t.ones & ~s.ones == 0,
    "ARRAY[a, p] <@ s": lambda s, t, p, a, b: p >= 0 and s.ones >> p & s.ones >> a & 1 == 1,
    "s ~= t": lambda s, t, p, a, b: s.ones == t.ones,
    "s ~= grow(s, length(t))": lambda s, t, p, a, b: True,
    "s <@? t": lambda s, t, p, a, b: s.ones & ~t.ones == 0,
    "contains(s, p)": lambda s, t, p, a, b: p >= 0 and s.ones >> p & 1 == 1,
    "s = t": lambda s, t, p, a, b: s.key() == t.key(),
    "s <> t": lambda s, t, p, a, b: s.key() != t.key(),
    "s < t": lambda s, t, p, a, b: s.key() < t.key(),
    "s <= t": lambda s, t, p, a, b: s.key() <= t.key(),
    "s > t": lambda s, t, p, a, b: s.key() > t.key(),
    "s >= t": lambda s, t, p, a, b: s.key() >= t.key(),
    "s = s": lambda s, t, p, a, b: True,
    "s && s": lambda s, t, p, a, b: s.ones != 0,
    "bitset_cmp(s, t)": lambda s, t, p, a, b: sign(s.key(), t.key()),
    "bitset_hash(s) = bitset_hash(t) OR s <> t": lambda s, t, p, a, b: True,
    "bitset_hash_extended(s, p) = bitset_hash_extended(s | bitset(0), p)": lambda s, t, p, a, b: True,
    "bitset_hash_extended(s, p) <> bitset_hash_extended(s, p - 1)": lambda s, t, p, a, b: True,
    "length(s)": lambda s, t, p, a, b: s.length,
    "count_ones(s)": lambda s, t, p, a, b: s.ones.bit_count(),
    "is_clear(s)": lambda s, t, p, a, b: s.ones == 0,
    "is_full(s)": lambda s, t, p, a, b: s.ones == mask(0, s.length),
    "minimum(s)": lambda s, t, p, a, b: next_of(s.ones, s.length, 0),
    "maximum(s)": lambda s, t, p, a, b: previous_of(s.ones, s.length),
    "next_one(s, p)": lambda s, t, p, a, b: around(s, p, False, False),
    "next_zero(s, p)": lambda s, t, p, a, b: around(s, p, True, False),
    "previous_one(s, p)": lambda s, t, p, a, b: around(s, p, False, True),
    "previous_zero(s, p)": lambda s, t, p, a, b: around(s, p, True, True),
    "union_count(s, t)": lambda s, t, p, a, b: (s.ones | t.ones).bit_count(),
    "intersection_count(s, t)": lambda s, t, p, a, b: (s.ones & t.ones).bit_count(),
    "difference_count(s, t)": lambda s, t, p, a, b: (s.ones & ~t.ones).bit_count(),
    "symmetric_difference_count(s, t)": lambda s, t, p, a, b: (s.ones ^ t.ones).bit_count(),
    "insert(s, p)": lambda s, t, p, a, b: below(s, p, lambda: s.ones | 1 << p),
    "remove(s, p)": lambda s, t, p, a, b: below(s, p, lambda: s.ones & ~(1 << p)),
    "toggle(s, p)": lambda s, t, p, a, b: below(s, p, lambda: s.ones ^ 1 << p),
    "grow(s, length(t))": lambda s, t, p, a, b: Set(max(s.length, t.length), s.ones),
    "insert_range(s, int8range(a, b))": lambda s, t, p, a, b: ranged(s, a, b, lambda m: Set(s.length, s.ones | m)),
    "remove_range(s, int8range(a, b))": lambda s, t, p, a, b: ranged(s, a, b, lambda m: Set(s.length, s.ones & ~m)),
    "toggle_range(s, int8range(a, b))": lambda s, t, p, a, b: ranged(s, a, b, lambda m: Set(s.length, s.ones ^ m)),
    "toggle_range(s, '(,)')": lambda s, t, p, a, b: Set(s.length, s.ones ^ mask(0, s.length)),
    "count_ones(s, int8range(a, b))": lambda s, t, p, a, b: ranged(s, a, b, lambda m: (s.ones & m).bit_count()),
    "count_zeroes(s, int8range(a, b))": lambda s, t, p, a, b: ranged(s, a, b, lambda m: (~s.ones & m).bit_count()),
    "contains_all(s, int8range(a, b))": lambda s, t, p, a, b: ranged(s, a, b, lambda m: s.ones & m == m),
    "contains_any(s, int8range(a, b))": lambda s, t, p, a, b: ranged(s, a, b, lambda m: s.ones & m != 0),
    "truncate(s, length(t))": lambda s, t, p, a, b: long(min(s.length, t.length), s.ones),
    "resize(s, length(t))": lambda s, t, p, a, b: long(t.length, s.ones),
    "resize(s, abs(p))": lambda s, t, p, a, b: long(abs(p), s.ones),
    "append(s, t)": lambda s, t, p, a, b: Set(s.length + t.length, s.ones | t.ones << s.length),
    "slice(s, int8range(a, b))": lambda s, t, p, a, b: ranged(s, a, b, lambda m: Set(b - a, (s.ones & m) >> a)),
    "copy_range(s, t, int8range(a, b), p)": lambda s, t, p, a, b: written(s, t, a, b, p),
    "copy_range(t, s, int8range(a, b), p / 2)": lambda s, t, p, a, b: written(t, s, a, b, int(p / 2)),
    "load(s, p, b)": lambda s, t, p, a, b: loaded(s, p, b),
    "load(s, a, b)": lambda s, t, p, a, b: loaded(s, a, b),
    "store(s, a, b, p)": lambda s, t, p, a, b: stored(s, a, b, p),
    "store(s, p, abs(p) % 65, -a)": lambda s, t, p, a, b: stored(s, p, abs(p) % 65, -a),
    "insert_all(s, ARRAY[a, p])": lambda s, t, p, a, b: below(s, p, lambda: s.ones | 1 << p | 1 << a) if a < s.length else wrong("2202E"),
    "remove_all(s, positions(t))": lambda s, t, p, a, b: Set(s.length, s.ones & ~t.ones) if t.ones >> s.length == 0 else wrong("2202E"),
    "shift_up(s, p)": lambda s, t, p, a, b: moved(s, p, lambda by: up(s.ones, by)),
    "shift_down(s, p)": lambda s, t, p, a, b: moved(s, p, lambda by: s.ones >> by),
    "union_with_shifted(s, t, p)": lambda s, t, p, a, b: moved(s, p, lambda by: s.ones | up(t.ones, by)),
    "union_with_shifted(s, s, a)": lambda s, t, p, a, b: moved(s, a, lambda by: s.ones | up(s.ones, by)),
    "rank(s, p)": lambda s, t, p, a, b: (s.ones & mask(0, min(max(p, 0), s.length))).bit_count(),
    "select_one(s, p)": lambda s, t, p, a, b: dict(enumerate(s.positions())).get(p),
    "select_one(s, abs(p) % 40)": lambda s, t, p, a, b: dict(enumerate(s.positions())).get(abs(p) % 40),
    "rank(s, select_one(s, abs(p) % 400))": lambda s, t, p, a, b: abs(p) % 400 if abs(p) % 400 < s.ones.bit_count() else None,
    "first_gap(s, p)": lambda s, t, p, a, b: gap(s, p, 0),
    "first_gap(s, abs(p) % 12, a - 1)": lambda s, t, p, a, b: gap(s, abs(p) % 12, max(a - 1, 0)),
    "first_aligned_gap(s, abs(p) % 12, abs(p) % 7, int8range(a, b))": lambda s, t, p, a, b: ranged(
        s, a, b, lambda m: aligned_gap(s, abs(p) % 12, abs(p) % 7, a, b)),
    "first_lacking(s, t)": lambda s, t, p, a, b: next_of(t.ones & ~s.ones, t.length, 0),
    "next_common(s, t, p)": lambda s, t, p, a, b: next_of(s.ones & t.ones, s.length, max(p, 0)),
    "next_common(s, t, a)": lambda s, t, p, a, b: next_of(s.ones & t.ones, s.length, max(a, 0)),
    "bitset_from_bytes(bytes(s), length(t))": lambda s, t, p, a, b: long(t.length, s.ones),
    "positions(s)": lambda s, t, p, a, b: s.positions(),
    "positions(s, p, b)": lambda s, t, p, a, b: s.positions()[p:p + b] if p >= 0 else wrong("22003"),
    "positions(s, abs(p) % 40, abs(p) % 7)": lambda s, t, p, a, b: s.positions()[abs(p) % 40:abs(p) % 40 + abs(p) % 7],
    "bitset(positions(s), length(s) + 3)": lambda s, t, p, a, b: Set(s.length + 3, s.ones),
    "bitset(length(s))": lambda s, t, p, a, b: Set(s.length, 0),
    "bytes(s)": lambda s, t, p, a, b: s.bytes(),
    "bitset(s::bytea)": lambda s, t, p, a, b: Set((s.length + 7) // 8 * 8, s.ones),
    "(s::bit varying)::text": lambda s, t, p, a, b: s.digits(),
    "(s::bit(64))::text": lambda s, t, p, a, b: s.digits() if s.length == 64 else wrong("22026"),
    "bitset(CAST(s AS \"bit\"))": lambda s, t, p, a, b: s,
    "bitset(s::bit varying)": lambda s, t, p, a, b: s,
    "s::text::bitset": lambda s, t, p, a, b: s,
    "ARRAY(SELECT ones(s))": lambda s, t, p, a, b: s.positions(),
    "ARRAY(SELECT zeroes(s))": lambda s, t, p, a, b: Set(s.length, mask(0, s.length) ^ s.ones).positions(),
    "ARRAY(SELECT ones(s, int8range(a, b)))":
        lambda s, t, p, a, b: ranged(s, a, b, lambda m: Set(s.length, s.ones & m).positions()),
    "ARRAY(SELECT zeroes(s, int8range(a, b)))":
        lambda s, t, p, a, b: ranged(s, a, b, lambda m: Set(s.length, ~s.ones & m).positions()),
    "(SELECT array_agg(lower(r) || '+' || upper(r)) FROM zero_runs(s) r)":
        lambda s, t, p, a, b: [f"{x}+{y}" for x, y in s.gaps()] or None,
    "(SELECT array_agg(lower(r) || '+' || upper(r)) FROM runs(s) r)":
        lambda s, t, p, a, b: [f"{x}+{y}" for x, y in s.runs()] or None,
}
# The aggregate over sets of a batch, and its answer.
AGGREGATES = {
    "bitset_union(s)": lambda sets: Set(max(s.length for s in sets), join(sets, int.__or__)),
    "bitset_intersection(s)": lambda sets: Set(min(s.length for s in sets), join(sets, int.__and__)),
    "bitset_symmetric_difference(s)": lambda sets: Set(max(s.length for s in sets), join(sets, int.__xor__)),
    "bitset_union_count(s)": lambda sets: join(sets, int.__or__).bit_count(),
    "bitset_intersection_count(s)": lambda sets: join(sets, int.__and__).bit_count(),
    "bitset_symmetric_difference_count(s)": lambda sets: join(sets, int.__xor__).bit_count(),
    "bitset_agg(minimum(s), length(s))": lambda sets: Set(max(s.length for s in sets), join(least_of(sets), int.__or__)),
    "bitset_agg(minimum(s))": lambda sets: without_length(join(least_of(sets), int.__or__)),
}

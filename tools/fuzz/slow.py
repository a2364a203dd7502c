"""Slow values beside `bits`: the commands that the sweep's files have, over sets that are a length and some positions.

`Slow` carries out a line and answers its reply. It has the commands of examples/second.txt and tools/memory/memory.txt alone.
"""
import json

SETS, LIMIT, GREATEST = 16, 1_000_000, 2**64 - 1
LACKS_MEMORY = "F6 no memory"
NOT_A_COMMAND, NO_SET, NO_POSITION = "F8 not a command", "F1 no such set", "F2 position not below the length"
NOT_VALID, TOO_GREAT, ABOVE_LIMIT = "F3 range not valid", "F4 position too great", "F7 length above the limit"
EMPTY = (0, frozenset())


class Refused(Exception):
    """A command is refused, with this reply."""


def need(holds, reply):
    if not holds:
        raise Refused(reply)


def cut(length, positions):
    return length, frozenset(it for it in positions if it < length)


def words_of(value, width=64):
    """The words of a value, or its bytes with width 8: as many as its words have."""
    length, positions = value
    count = -(-length // 64) * (64 // width)
    return [sum(1 << (it - at) for it in positions if at <= it < at + width) for at in range(0, count * width, width)]


def of_words(length, words, width=64):
    return cut(length, {width * at + bit for at, word in enumerate(words) for bit in range(width) if word >> bit & 1})


def is_whole(value, end):
    return type(value) is int and 0 <= value < end


def form(value):
    """The length and the bytes of a value in the form."""
    need(isinstance(value, (dict, list)), "F5 J1")
    if isinstance(value, list):
        need(len(value) == 2, "F5 J2")
        length, data = value
    else:
        need("length" in value, "F5 J3")
        need("data" in value, "F5 J4")
        need(len(value) == 2, "F5 J5")
        length, data = value["length"], value["data"]
    need(is_whole(length, 2**64), "F5 J6")
    need(isinstance(data, list), "F5 J7")
    for at, byte in enumerate(data):
        need(is_whole(byte, 256), f"F5 J8 {at}")
    return length, data


def added(value, items):
    """The value with the items before the first greatest number, and whether there is none."""
    taken = items[: items.index(GREATEST)] if GREATEST in items else items
    need(all(it < LIMIT for it in taken), ABOVE_LIMIT)
    return (max([value[0], *(it + 1 for it in taken)]), value[1] | set(taken)), len(taken) == len(items)


def calls(ends, *parts):
    """What the calls of a walk over the parts answer."""
    left = [it for part in parts for it in sorted(part)]
    return " ".join(str(left.pop(0 if end == "f" else -1)) if left else "none" for end in ends)


JOINS = {"bitand": (min, frozenset.intersection), "bitor": (max, frozenset.union), "bitxor": (max, frozenset.symmetric_difference)}
ASSIGNS = {"union_with": "bitor", "bitor_assign": "bitor", "symmetric_difference_with": "bitxor", "bitxor_assign": "bitxor"}
WALKS = {
    "union": lambda v, w: (v, w - v), "intersection": lambda v, w: (v & w,), "difference": lambda v, w: (v - w,),
    "symmetric_difference": lambda v, w: (v - w, w - v),
}
ASKS = {
    "len": lambda v: v[0], "maximum": lambda v: max(v[1], default="none"), "to_value": lambda v: json_text(v),
    "as_slice": lambda v: " ".join(map(str, words_of(v))) or "-", "text": lambda v: "".join("01"[it in v[1]] for it in range(v[0])),
}


def json_text(value):
    return json.dumps({"data": words_of(value, 8), "length": value[0]}, separators=(",", ":"))


def joined(name, v, w):
    length, join = JOINS[name]
    return cut(length(v[0], w[0]), join(v[1], w[1]))


def range_of(word, length):
    start, _, end = word.partition("..")
    start, end = int(start or 0), int(end or length)
    need(start <= end <= length, NOT_VALID)
    return start, end


class Slow:
    """Sixteen sets."""
    def __init__(self):
        self.sets = [EMPTY] * SETS

    def reply(self, line):
        """Carries out a line."""
        name, *words = line.split(" ")
        try:
            return str(self.carried_out(name, words))
        except Refused as refused:
            return refused.args[0]

    def carried_out(self, name, words):
        if name == "from_value":
            return self.made(name, [int(words[0])], " ".join(words[1:]))
        numbers = [int(it) for it in words if it.isdecimal()]
        need(all(it <= GREATEST for it in numbers), NOT_A_COMMAND)
        if name in ASKS or name in ("count_ones", "eq", "cmp"):
            return self.told(name, numbers, words[-1])
        if name in WALKS or name in ("ones", "into_ones", "zeroes"):
            return self.walked(name, numbers, words[-1])
        return self.made(name, numbers, "")

    def at(self, *numbers):
        need(all(it < SETS for it in numbers), NO_SET)
        return [self.sets[it] for it in numbers]

    def told(self, name, numbers, last):
        sets = self.at(*numbers)
        if name in ASKS:
            return ASKS[name](sets[0])
        if name == "count_ones":
            start, end = range_of(last, sets[0][0])
            return sum(start <= it < end for it in sets[0][1])
        if name == "eq":
            return str(sets[0] == sets[1]).lower()
        first, second = ((it[0], words_of(it)) for it in sets)
        return "less" if first < second else "equal" if first == second else "greater"

    def walked(self, name, numbers, ends):
        sets = self.at(*numbers)
        length, positions = sets[0]
        if name in WALKS:
            return calls(ends, *WALKS[name](positions, sets[1][1]))
        if name == "into_ones":
            self.sets[numbers[0]] = EMPTY
        return calls(ends, set(range(length)) - positions if name == "zeroes" else positions)

    def made(self, name, numbers, text):
        """The changes: each answers 'ok', or what refuses it."""
        if name not in CHANGES:
            raise Refused(NOT_A_COMMAND)
        at, *others = numbers
        self.at(at)
        self.sets[at], is_whole_list = CHANGES[name](self, self.sets[at], others, text)
        return "ok" if is_whole_list else TOO_GREAT


def sized(length, value):
    need(length <= LIMIT, ABOVE_LIMIT)
    return value, True


def inserted(value, position):
    need(position < value[0], NO_POSITION)
    return (value[0], value[1] | {position}), True


def of_value(text):
    length, data = form(json.loads(text))
    return sized(length, of_words(min(length, LIMIT), data, 8))


def of_items(old, items):
    value, is_all = added(EMPTY, items)
    return (value if is_all else old), is_all


CHANGES = {
    "with_capacity": lambda slow, v, rest, text: sized(rest[0], (rest[0], frozenset())),
    "with_capacity_and_blocks": lambda slow, v, rest, text: sized(rest[0], of_words(min(rest[0], LIMIT), rest[1:])),
    "from_iter": lambda slow, v, rest, text: of_items(v, rest),
    "from_value": lambda slow, v, rest, text: of_value(text),
    "clone": lambda slow, v, rest, text: (slow.at(*rest)[0], True),
    "clone_from": lambda slow, v, rest, text: (slow.at(*rest)[0], True),
    "grow": lambda slow, v, rest, text: sized(rest[0], (max(v[0], rest[0]), v[1])),
    "grow_and_insert": lambda slow, v, rest, text: added(v, rest),
    "insert": lambda slow, v, rest, text: inserted(v, rest[0]),
    "extend": lambda slow, v, rest, text: added(v, rest),
    **{it: lambda slow, v, rest, text, it=it: (joined(it, *slow.at(*rest)), True) for it in JOINS},
    **{it: lambda slow, v, rest, text, by=by: (joined(by, v, *slow.at(*rest)), True) for it, by in ASSIGNS.items()},
}

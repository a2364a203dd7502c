"""What valgrind counts of a program: how often it makes each instruction, and its compiled code."""
import os
import re
import subprocess

OBJECT = re.compile(r"(c?)ob=\((\d+)\)(?: (.*))?")


def made(text, program):
    """How often each instruction of the program itself was made, in a part that callgrind wrote: {address: count}."""
    counts, objects, own, address, is_call = {}, {}, False, 0, False
    path = os.path.realpath(program)
    for line in text.splitlines():
        if it := OBJECT.match(line):
            called, number, name = it.groups()
            objects.setdefault(number, name)
            if not called:
                own = objects[number] == path
        elif line.startswith("calls="):
            is_call = True
        elif line[:1] in {"0", "+", "-", "*"}:
            place, _, count = line.split()
            if place.startswith("0x"):
                address = int(place, 16)
            elif place != "*":
                address += int(place)
            if own and not is_call:  # else the line has what the called function made
                counts[address] = counts.get(address, 0) + int(count)
            is_call = False
    return counts


def total(text):
    """How many instructions were made in a part, those of the libraries too."""
    return int(re.search(r"^(?:summary|totals): (\d+)", text, re.M)[1])


def code(program):
    """The compiled code: {address: instruction}."""
    ran = subprocess.run(["objdump", "-d", "--no-show-raw-insn", program], capture_output=True, text=True, check=True)
    return {int(it[1], 16): it[2] for it in re.finditer(r"^ *([0-9a-f]+):\s+(.*?)(?: +[<#].*)?$", ran.stdout, re.M)}


def print_code(counts, texts, items):
    """Prints each instruction that is made for a third of the items at least, and how often."""
    often = sorted(it for it in counts if it in texts and 3 * counts[it] >= items)
    print("\n".join(f"{it:8x} {counts[it] / items:8.2f}  {texts[it]}" for it in often))

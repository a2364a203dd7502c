"""The closed lists of pairs.txt: what stands for each other, what one side alone has, and what may differ, with a reason each."""
import pathlib

from names import plain

FILE = pathlib.Path(__file__).resolve().parent / "pairs.txt"


class Listed:
    """The entries of the file by their headings, and those that were needed."""

    def __init__(self, text=None):
        self.entries, self.used, heading = {}, set(), ""
        for line in (FILE.read_text(encoding="utf-8") if text is None else text).splitlines():
            if line.startswith("["):
                heading = line.strip("[]")
            elif line.strip() and not line.startswith("#"):
                entry, _, reason = (it.strip() for it in line.rpartition(" # "))
                if not entry:
                    raise SystemExit(f"front/check_mir: {line}: it has no reason")
                self.entries[heading, entry] = reason

    def has(self, heading, entry):
        """Whether an entry stands there, which then counts as needed."""
        is_there = (heading, entry) in self.entries
        self.used |= {(heading, entry)} if is_there else set()
        return is_there

    def is_pair(self, kit, rust):
        pair = f"{kit} = {plain(rust)}"
        return self.has("pairs", pair) or self.has("pairs by the compiler", pair)

    def explains(self, name, fault):
        """Whether the file lists this difference of a body, which an entry has by how it begins."""
        entries = [entry for heading, entry in self.entries if heading == "differ" and entry.startswith(f"{name}: ")]
        return any(self.has("differ", it) for it in entries if fault.startswith(it.removeprefix(f"{name}: ")))

    def unused(self):
        """The entries that nothing needed."""
        return [f"[{heading}] {entry}" for heading, entry in self.entries
                if (heading, entry) not in self.used and heading != "pairs by the compiler"]

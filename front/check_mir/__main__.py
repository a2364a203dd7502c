"""Compares the proved code with what rustc compiles of it, body by body, by code that shares nothing with front/erase.

usage: front/check_mir/run [--rustc RUSTC] [--libraries FOLDER] [--anew] [rust] [program]

It takes the MIR of the proved libraries, as the kit wrote it, and the MIR that rustc makes of the crate for Rust and of the
program, and runs each function of both step by step together, on symbols in place of values. Each call, with its arguments, each
store, each branch, each head of a loop and each result has to come on both sides at the same point, with equal terms. It fails
where they differ, on a form that it does not know, on a step that no walk reached, and on what pairs.txt does not list: a function
of std that stands for another, and a function that one side alone has.

The libraries are those below FOLDER, else below the repository, as `rt lib` builds them in crates/NAME/out. Where one is not
built, nothing is tried; with CI=true in the environment that is a failure. What a run here passed of the same libraries, files and
compiler is not compared again, but with --anew. The last line is 'N passed, M failed'.
"""
import os
import pathlib
import shutil
import subprocess
import sys

TOP = pathlib.Path(__file__).resolve().parent.parent.parent
sys.path[:0] = [str(TOP / it) for it in ("tools", "front", "front/check_mir")]
import kept  # noqa: E402
from calls import Parser  # noqa: E402
from erase_tables import OF_PROGRAM, OF_RUST  # noqa: E402
from kit import Kit  # noqa: E402
from listed import Listed  # noqa: E402
from report import OF_KIT, Comparison, Target  # noqa: E402

TARGETS = (
    Target("rust", "front/rust", ("front/rust/src",), "proved", OF_RUST.modules()),
    Target("program", "front/program", ("front/program/src", "front/rust/src"), "program|proved", OF_PROGRAM.modules()),
)


class NotHere(Exception):
    """Nothing can be compared here, for this reason."""


def libraries(given):
    """The kit's MIR of all crates below a folder."""
    paths = [given.libraries.resolve() / f"crates/{it}/out/rlib/{it}.rlib/toolchain/mir.json" for it in TARGETS[1].modules]
    missing = [f"{it}, which rt lib builds" for it in paths if not it.is_file()]
    missing += [it for it in ("rt", "cargo", given.rustc) if not shutil.which(it)]
    if missing:
        raise NotHere(missing[0])
    return paths


def read_kit(paths):
    return Kit(paths, [kept.kit() / f"rlibs/{it}.rlib/toolchain/mir.json" for it in OF_KIT])


def parser_of(script, text):
    """The words that front/check_mir/run and its test take."""
    parser = Parser(script, text)
    parser.add_argument("--anew", action="store_true")
    parser.add_argument("--rustc", default="rustc")
    parser.add_argument("--libraries", type=pathlib.Path, default=TOP)
    return parser


def sum_of_inputs(paths, rustc):
    """A sum of all that a run reads, in the folder that it runs in."""
    version = subprocess.run([rustc, "--version", "--verbose"], stdout=subprocess.PIPE, text=True, check=True).stdout
    sources = [pathlib.Path("front", it) for it in ("check_mir", "erase_tables.py", "rust", "program")]
    return kept.sum_of(["front/check_mir", kept.kit_sum(), version, *(path.read_bytes() for path in paths), *sources])


def compare_all(names, kit, rustc):
    """Compares each of these targets, and says what is wrong; returns how many bodies agree or are explained, and how many not."""
    listed, passed, failed = Listed(), 0, 0
    for target in (it for it in TARGETS if it.name in names):
        found = Comparison(target, kit, target.mir(TOP, rustc), TOP, listed).run()
        for name, fault in found.faults.items():
            print(f"{target.name}: {name}: FAILED: {fault[:400]}")
        agree, explained, wrong = len(found.agree), len(found.explained), len(found.faults)
        print(f"{target.name}: {agree} bodies agree, {explained} differ as pairs.txt says, {wrong} failed")
        passed, failed = passed + agree + explained, failed + wrong
    unused = [] if len(names) < len(TARGETS) else listed.unused()
    for entry in unused:
        print(f"pairs.txt: {entry}: FAILED: nothing needs it")
    return passed, failed + len(unused)


def not_tried(reason):
    """Says that nothing is tried here, and returns the status."""
    is_wrong = os.environ.get("CI") == "true"
    print(f"not here, so not tried: {reason}\n0 passed, {int(is_wrong)} failed")
    return int(is_wrong)


def main(words):
    parser = parser_of("front/check_mir/run", __doc__)
    parser.add_argument("targets", nargs="*", metavar="rust or program")
    given = parser.parse_args(words)
    names = given.targets or [it.name for it in TARGETS]
    if wrong := set(names) - {it.name for it in TARGETS}:
        parser.error(f"{min(wrong)} is no target")
    try:
        paths = libraries(given)
    except NotHere as reason:
        return not_tried(reason)
    os.chdir(TOP)
    store, key = kept.Kept(anew=given.anew), sum_of_inputs(paths, given.rustc) if len(names) == len(TARGETS) else ""
    if found := store.get(key) if key else None:
        print(f"kept: an earlier run here passed the same files\n{found['passed']} passed, 0 failed")
        return 0
    passed, failed = compare_all(names, read_kit(paths), given.rustc)
    if key and not failed:
        store.put(key, {"passed": passed})
    print(f"{passed} passed, {failed} failed")
    return int(failed > 0)


if __name__ == "__main__":
    sys.setrecursionlimit(20_000)
    sys.exit(main(sys.argv[1:]))

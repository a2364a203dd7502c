"""What the gate runs: each stage with all that it reads."""
import pathlib
import re
import shutil

from stages import CRATES, Stage

SCRIPTS = "tools/gate"
# What scripts of several folders of tools/ share.
SHARED = ("tools/calls.py", "tools/kept.py", "tools/running.py")
# The program that ./bits builds by cargo, and what builds it.
PROGRAM, CARGO = "front/program", ("cargo", "rustc", "cc")
# What finds crates for cargo where it reaches no registry.
OFFLINE = ("tools/offline", "tools/launch")
MAKERS = ("cc", "gcc", "g++", "clang", "make", "cargo", "rustc", "pkg-config", "valgrind", "python3")


def read_crates(top):
    """The crates of crates.txt, the lowest first, with those that each names."""
    found = {}
    for line in (pathlib.Path(top) / "crates.txt").read_text().splitlines():
        if line.strip() and not line.startswith("#"):
            head, _, names = line.partition(":")
            found[head.split()[0]] = names.split()
    return found


def below(crates, name):
    """The crates of the repository that one stands on."""
    found = set()
    for it in crates.get(name, ()):
        if it in crates:
            found |= {it} | below(crates, it)
    return found


def as_source(crates, name, top, kit):
    """The words that pass all that a crate stands on as source, the kit's libraries too, each with those that it may use."""
    words, of_kit = [], {"core", "std"}
    for it in sorted(below(crates, name)):
        uses = ["core", "std", *(other for other in crates[it] if other not in ("core", "std"))]
        words.append(f"--lib={it}:{','.join(uses)}={top}/crates/{it}/src/lib.rt")
        of_kit |= {other for other in uses if other not in crates}
    left = sorted(of_kit | {it for it in crates[name] if it not in crates})
    for it in left:
        uses = re.findall(r"(?m)^dep (\w+)$", (kit / f"rlibs/{it}.rlib/format").read_text())
        words.append(f"--lib={it}:{','.join(uses)}={kit}/rattle/{it}/src/lib.rt")
        left += [other for other in uses if other not in left]
    return words


def with_those_above(crates, names):
    """These crates and all that stand on one of them, in the order of crates.txt."""
    return [it for it in crates if it in names or below(crates, it) & set(names)]


class Plan:
    """The stages for all crates, or for some of them and what stands on those."""
    def __init__(self, top, names=()):
        self.top, self.crates = pathlib.Path(top), read_crates(top)
        self.names = with_those_above(self.crates, names) if names else list(self.crates)
        self.is_whole = not names

    def has(self, *names):
        return self.is_whole or bool(set(names) & set(self.names))

    def sources(self, *names, parts=("src", "specs")):
        """The folders of these crates and of those below them that a build of them reads."""
        all_names = [it for it in self.crates if it in names or any(it in below(self.crates, name) for name in names)]
        paths = [f"crates/{name}/{part}" for name in all_names for part in parts]
        return ["crates.txt", *(it for it in paths if (self.top / it).is_dir())]

    def missing(self):
        """The commands that stages call and that are not here: these stages then leave out what needs them."""
        tools = {tool for stage in (*self.fronts(), *self.mutants(), *self.libraries(), *self.last()) for tool in stage.tools}
        return sorted(tool for tool in tools if not shutil.which(tool))

    def texts(self):
        return Stage("texts", (f"{SCRIPTS}/texts",))

    def first(self):
        """What needs no proof, the quickest first."""
        script = ("bits", "use", *OFFLINE, "tools/calls.py", "README.md", "crates.txt", PROGRAM, "front/rust/src")
        door = (*script, "front/rust", "front/c", "front/lib", "front/checks.sh", "tools/gate/door", "examples", *self.sources("bits"))
        programs = (".ci", "bits", "use", "test", "tools", "front", "bench")
        calls = (*programs, "tests/libraries.txt", "crates.txt", "README.md", "CONTRIBUTING.md")
        return [
            Stage("./bits and ./use by stand-ins", ("tools/launch/check_bits",), script, CARGO, needs=(CRATES,)),
            Stage("calls that are not known", ("tools/launch/check_calls",), calls, CARGO),
            Stage("README's commands as on a fresh machine", ("tools/gate/door",), door, CARGO, needs=("unshare", CRATES)),
        ]

    def scripts(self):
        """The tests of the scripts that judge."""
        edits = (*SHARED, "tools/mutants")
        gate = (*edits, "tests/libraries.txt", "crates.txt", "test", SCRIPTS)
        return [
            Stage("the script that tries edits", ("tools/mutants/check_edits",), edits),
            Stage("the gate by itself", (f"{SCRIPTS}/check_gate",), gate),
        ] if self.is_whole else []

    def tests(self):
        """The folders of tests of values that use one of the crates, each with the crates that it uses."""
        libraries = (self.top / "tests/libraries.txt").read_text()
        uses = {name: names.split() for name, names in re.findall(r"(?m)^(\w+): (.*)$", libraries)}
        return {it: [name for name in uses[it] if name in self.crates] for it in uses if self.has(it, *uses[it])}

    def needed(self):
        """The crates that have to be proved: with those that the tests use, and all below."""
        names = {*self.names, *(it for names in self.tests().values() for it in names)}
        return names.union(*(below(self.crates, it) for it in names))

    def tests_of_values(self):
        tests = self.tests()
        used = sorted({it for names in tests.values() for it in names})
        makers = ("tools/docs/make_examples", "tools/docs/make_api", "tools/new_crate", "tools/calls.py")
        inputs = ("tests", "tools/run_tests", *makers, *self.sources(*used))
        return Stage("tests of values", ("tools/run_tests", *tests), inputs) if tests else None

    def proofs(self):
        return Stage("proofs and programs", (f"{SCRIPTS}/proofs",), keeps=True)

    def edits(self, log, folder, lanes, sums):
        words = ("--proved", "--lanes", str(lanes), "--beside", log, "--from", folder, "--sums", sums)
        names = () if self.is_whole else self.names
        return Stage("wrong bodies", ("tools/mutants/edits", *words, *names), keeps=True)

    def fronts(self):
        """What stands above the static library and is no Rattle, and rests on no work of a proof."""
        library = self.sources("bits_c", parts=("src", "specs", "proofs"))
        gcc = [f"{it}-linux-gnu-gcc" for it in ("aarch64", "i686", "s390x")]
        qemu = ("qemu-aarch64-static", "qemu-s390x-static")
        docs = [f"tools/docs/{it}" for it in ("make_api", "check_contracts")]
        inputs = ("front", *OFFLINE, *docs, "tools/calls.py", "tools/kept.py", *library, *self.sources("bits"))
        front = Stage("the crate for Rust and the header for C", ("front/test",), inputs, (*MAKERS, "cmake", "dpkg-deb", *gcc, *qemu), ("README.md",))
        crate = ("front/rust", "front/differ", *OFFLINE, "front/compilers")
        emulators = (*qemu, "wasm-ld", "node", "cargo", "rustc", "cc", *gcc)
        others = ("front/targets", "front/checks.sh", "front/erase_examples", "front/wrong", "front/wrong_lines", "tools/kept.py")
        targets = Stage("the crate on other targets", ("front/targets",), (*crate, *others), emulators)
        texts = ("docs/COMMANDS.md", "examples", "crates/bits/stdin", "crates/bits/stdout", "tools/memory/memory.txt")
        shared = ("front/checks.sh", "front/erase_examples", *OFFLINE, "front/compilers", "front/tools", "tools/kept.py")
        inputs = ("front/program", "front/rust/src", *shared, *texts)
        program = Stage("the program by cargo", ("front/program/test",), inputs, (*CARGO, *gcc, *qemu), needs=(CRATES,))
        client = Stage("petgraph over the crate", ("front/client",), (*crate, "front/client", "front/rustdoc"), ("cargo", "rustc", "cc"))
        return [front, targets, client] * self.has("bits_c") + [program] * self.has("bits")

    def mutants(self):
        """The wrong bodies, as the tests of the crate, of the program and of the library for C see them, and as runs see those of the
        uses and of what only tests use: those that have no verdict in front/wrong, and some by chance. (They are read where they
        stand, and what is written goes into other folders.)"""
        edits = self.sources(*self.crates, parts=("src", "must-fail"))
        makers = ("erase", "erase_source.py", "erase_tables.py", "wrong", "wrong_translations", "erase_examples", "compilers")
        made = [f"front/{it}" for it in (*makers, "c", "differ", "lib", "program", "rust")]
        texts = ("docs/COMMANDS.md", "examples", "crates/bits/stdin", "crates/bits/stdout", "tools/memory/memory.txt")
        inputs = (*edits, *made, *texts, *OFFLINE, "tools/kept.py", "tools/mutants")
        stage = Stage("wrong bodies seen by tests", ("front/wrong_translations", "--jobs", "1"), inputs, CARGO, needs=(CRATES,))
        inputs = (*edits, *made[:5], "tests", "crates/uses", *SHARED, "tools/mutants", "tools/gate", "tools/fuzz/slow_answers.py")
        runs = Stage("wrong bodies seen by runs", ("tools/mutants/wrong_runs",), inputs)
        return [stage] * self.has("bits") + [runs] * self.has("uses")

    def libraries(self):
        """What is built of the static library over the work of the proofs, and the type for PostgreSQL: some of its tests end
        calls by the clock, and want a processor of their own."""
        library = self.sources("bits_c", parts=("src", "specs", "proofs"))
        archives = Stage("the archives for C", ("front/lib/test",), ("front/lib", "front/archive", "front/checks.sh", "front/c", *library), ("cc",))
        server = ("pg_config", "psql", "dpkg-deb", *MAKERS)
        inputs = ("front/postgres", "front/lib", "front/c", "front/rust/src", "front/rust/LICENSE-MIT", "CHANGELOG.md")
        postgres = Stage("the type for PostgreSQL", ("front/postgres/test",), inputs, server, ("README.md",))
        glue = ("front/wasm", "front/wrong", "front/wrong_lines", "front/checks.sh", "tools/kept.py")
        made = ("front/archive", "front/compilers", "front/c/bits.h", "front/c/source", "front/rust/src", *library)
        browsers = Stage("sets in a browser and in Node", ("front/wasm/test",), (*glue, *made), ("node", "npm", "tsc", "wasm-ld", "chromium", "python3"))
        # (What these compare is the libraries' MIR, which the proofs leave in the folder.)
        compilers = ("cargo", "rustc")
        erased = [Stage("what rustc compiles and what was proved", ("front/check_mir/run",), tools=compilers, keeps=True),
                  Stage("that comparison by itself", ("front/check_mir/test",), tools=compilers, keeps=True)]
        return [archives, postgres, browsers] * self.has("bits_c") + erased * self.is_whole

    def last(self):
        """What runs the programs."""
        script = ("bits", *OFFLINE, "tools/calls.py", PROGRAM)
        bits = (*self.sources("bits"), *script, "docs/COMMANDS.md", "examples", f"{SCRIPTS}/programs", f"{SCRIPTS}/report.sh")
        shared = ("tools/calls.py", "tools/running.py", "tools/fuzz", "tools/memory")
        uses = ("use", "tools/launch/build.sh", *(f"crates/uses/{it}" for it in ("examples", "cases", "stdin", "args")))
        commands = ("tools/docs/check_commands",)
        refusals = self.sources("test_refusals", "bits")
        stages = [
            (["bits"], Stage("programs", (f"{SCRIPTS}/programs",), bits, CARGO, needs=(CRATES,))),
            (["bits"], Stage("examples of docs/COMMANDS.md", ("tools/docs/check_commands",), (*bits, *commands), CARGO, needs=(CRATES,))),
            (["bits"], Stage("lines with one byte changed", ("tools/fuzz/lines",), (*bits, *commands, *shared), CARGO, needs=(CRATES,))),
            (["uses"], Stage("input of the uses", ("tools/fuzz/uses",), (*self.sources("uses"), *uses, *shared))),
            (["bits", "test_refusals"], Stage("memory refused", ("tools/memory/sweep",), (*refusals, "examples", "docs/COMMANDS.md", *shared))),
        ]
        return [stage for names, stage in stages if all(map(self.has, names))]

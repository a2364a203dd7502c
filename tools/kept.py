"""What earlier runs on this machine found, kept beside the kit and outside each checkout.

An entry's name is the sum of all that it rests on, so it never goes stale: where anything of that changes, it has another
name. It is written apart and then renamed, so nobody meets half of it. It says its own name and a sum of its value, and
one that does not is none. Where the folder cannot be used, or the disk is nearly full, nothing is kept.
"""
import contextlib
import fnmatch
import functools
import hashlib
import json
import os
import pathlib
import re
import shutil
import stat
import subprocess
import tempfile

# The most that is kept, in bytes and in entries, and the bytes of the disk below which nothing more is.
MOST_BYTES, MOST_ENTRIES, LEFT_ON_DISK = 200_000_000, 20_000, 3_000_000_000
TOP = pathlib.Path(__file__).resolve().parent.parent
# What rt reads into its own sum of the kit, and the folders of which it takes the sizes and times.
KIT_TEXTS = ("KIT-ID", "WHAT", "bin/rt", "bin/rtlib.py")
KIT_FOLDERS = ("bin", "toolchain", "logic_built", "c", "rattle/logic", "rattle/antt")


@functools.cache
def kit():
    """The folder of the kit."""
    said = subprocess.run(["rt", "doc"], capture_output=True, text=True, check=True).stdout
    return pathlib.Path(said.strip()).parent


@functools.cache
def kit_logic():
    """The program logic of the kit, as README names it: builds of the kit that have the same one prove the same clauses."""
    return re.search(r"logic \S+", (kit() / "KIT-ID").read_text())[0]


@functools.cache
def kit_sum():
    """A sum of the kit: the texts that name it and its libraries, and the size and time of each file that a check reads. The
    other files of its libraries are held to the sum in their `format`."""
    top = kit()
    texts = [top / name for name in KIT_TEXTS] + sorted((top / "rlibs").glob("*/format"))
    digest = hashlib.sha256(sum_of(part for it in texts for part in (str(it.relative_to(top)), it.read_bytes())).encode())
    paths = [path for folder in KIT_FOLDERS for path in files_below(top / folder)]
    for rlib in sorted((top / "rlibs").iterdir()):
        paths += [rlib / "format", *files_below(rlib / "toolchain")]
    for path in paths:
        digest.update(f"{path.relative_to(top)} {size_and_time(path)}\n".encode())
    return digest.hexdigest()


def size_and_time(path):
    try:
        found = os.lstat(path)
    except OSError:
        return "none"
    return f"{found.st_mode} {found.st_size} {found.st_mtime_ns}"


def place():
    """The folder beside the kit for what is kept of this project, or the one that the environment names."""
    return pathlib.Path(os.environ.get("FIXEDBITSET_KEPT") or kit().parent / "fixedbitset-kept")


def files_below(folder):
    """The files of a folder in a fixed order, without those that git ignores, since no source is among them."""
    for at, folders, names in os.walk(folder):
        folders[:] = sorted(name for name in folders if not is_ignored(pathlib.Path(at, name)))
        yield from (path for name in sorted(names) if not is_ignored(path := pathlib.Path(at, name)))


@functools.cache
def ignored():
    """What .gitignore has: names of files and folders, and paths from the top."""
    file = TOP / ".gitignore"
    lines = file.read_text().splitlines() if file.is_file() else []
    return [".git", *(line.rstrip("/") for line in lines if line and not line.startswith("#"))]


def is_ignored(path):
    from_top = os.path.relpath(path, TOP)
    return any(fnmatch.fnmatch(from_top if "/" in pattern else path.name, pattern) for pattern in ignored())


def sum_of(parts):
    """A sum of texts, bytes and paths, in their order. A path counts with the name that it is given by: a file with its mode
    and its bytes, a folder with the names, modes and bytes of all files below it."""
    digest = hashlib.sha256()
    for part in parts:
        if isinstance(part, pathlib.PurePath):
            files = files_below(part) if os.path.isdir(part) else [part]
            for path in files:
                add(digest, b"path", f"{path} {mode_of(path)}".encode(), bytes_of(path))
        else:
            add(digest, b"text", part.encode() if isinstance(part, str) else part)
    return digest.hexdigest()


def add(digest, *pieces):
    """Adds pieces with their lengths, so that no other pieces give the same."""
    for piece in pieces:
        digest.update(f"{len(piece)} ".encode())
        digest.update(piece)


def mode_of(path):
    try:
        found = os.lstat(path)
    except OSError:
        return "none"
    is_link = stat.S_ISLNK(found.st_mode)
    return f"link to {os.readlink(path)}" if is_link else f"{found.st_mode:o}"


def bytes_of(path):
    return pathlib.Path(path).read_bytes() if os.path.isfile(path) else b""


class Kept:
    """The store, or with `anew` one that takes nothing and keeps nothing."""
    def __init__(self, anew=False, folder=None):
        self.folder, self.puts = None, 0
        if not anew:
            self.folder = usable(folder)

    @property
    def is_usable(self):
        return self.folder is not None

    def get(self, key):
        """What was kept by this key, or None."""
        if not self.is_usable:
            return None
        path = self.folder / key
        try:
            found = json.loads(path.read_text())
            is_whole = found["key"] == key and found["sum"] == sum_of_value(found["value"])
        except (OSError, ValueError, KeyError, TypeError):
            return None
        if not is_whole:
            return None
        with contextlib.suppress(OSError):
            os.utime(path)
        return found["value"]

    def put(self, key, value):
        """Keeps a value, which is a dict of what JSON has."""
        if not self.has_room():
            return
        entry = {"key": key, "sum": sum_of_value(value), "value": value}
        with contextlib.suppress(OSError):
            with tempfile.NamedTemporaryFile("w", prefix=f"new-{os.getpid()}-", dir=self.folder, delete=False) as file:
                json.dump(entry, file)
            os.replace(file.name, self.folder / key)
            self.puts += 1
            if self.puts % 500 == 1:
                self.shrink()

    def has_room(self):
        try:
            return self.is_usable and shutil.disk_usage(self.folder).free >= LEFT_ON_DISK
        except OSError:
            return False

    def shrink(self):
        """Removes what runs that were ended left, and the entries longest unused until the others are not too many."""
        entries = []
        for path in [self.folder / name for name in os.listdir(self.folder)]:
            with contextlib.suppress(OSError):
                found = re.match(r"new-(\d+)-", path.name)
                if not found:
                    entries.append((path.stat().st_mtime, path, path.stat().st_size))
                elif not os.path.exists(f"/proc/{found[1]}"):
                    path.unlink()
        size, count = sum(entry[2] for entry in entries), len(entries)
        for _, path, own in sorted(entries):
            if size <= MOST_BYTES and count <= MOST_ENTRIES:
                break
            with contextlib.suppress(OSError):
                path.unlink()
            size, count = size - own, count - 1


def usable(folder):
    """The folder, or the one beside the kit, made where there is none. None where it is not one of ours alone, or where the
    kit cannot be read."""
    try:
        kit_sum()
        folder = folder or place() / "kept"
        os.makedirs(folder, 0o700, exist_ok=True)
        found = os.lstat(folder)
        if stat.S_ISDIR(found.st_mode) and found.st_uid == os.geteuid():
            os.chmod(folder, 0o700)
            return pathlib.Path(folder)
    except (OSError, subprocess.SubprocessError):
        pass
    return None


def sum_of_value(value):
    if not isinstance(value, dict):
        raise TypeError(value)
    return hashlib.sha256(json.dumps(value, sort_keys=True).encode()).hexdigest()

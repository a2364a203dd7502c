"""Runs a check of a copy."""
import os
import pathlib
import shutil


def link_or_copy(of, to):
    try:
        os.link(of, to)
    except OSError:
        shutil.copy2(of, to)


class Checks:
    """Checks of copies of a project's crates, each with one job."""
    def __init__(self, project, processes):
        self.project, self.processes = project, processes

    def room(self):
        return self.processes.room()

    def check(self, copy, work=None, fills=False):
        """What a check says of a copy: from nothing, or over a copy of the work that a check left in a folder, or over that
        folder itself, which it fills. (A check writes no file of its work anew, but another in its place. So links are a copy.)"""
        with self.room() as room:
            for path, text in copy.files().items():
                os.makedirs(os.path.dirname(f"{room}/{path}"), exist_ok=True)
                pathlib.Path(room, path).write_text(text)
            words = self.words(copy)
            if work and not fills:
                work = shutil.copytree(work, f"{room}/kept", copy_function=link_or_copy)
            words += [f"--incremental={work}"] if work else []
            words += [f"--only={symbol}" for symbol in sorted(copy.only)]
            words += ["--allow-holes"] if copy.has_holes else []
            return self.processes.run(words, room)

    def words(self, copy):
        """The command of a check. As source below an empty crate libraries are judged alike, and the check does not offer
        files to start proofs with, which takes it seconds. So is a static library, and a program without `main`, and then it
        reads no code of the libraries that they would link."""
        kit, crates = self.project.kit, copy.crates
        name, root = ("top_of_edits", "top/src/lib.rt") if copy.is_source else (crates[0].name, crates[0].root)
        words = [f"{kit}/bin/rattle", "check", "--jobs=1", f"--crate-name={name}", root, f"--links={name}="]
        of_kit = ["core", *(["std"] if any(crate.names_std for crate in crates) else [])]
        for library in dict.fromkeys([*of_kit, *(dep for crate in crates for dep in crate.deps)]):
            words.append(f"--extern={library}={self.folder_of(library)}/{library}.rlib")
        words += [f"-Ldependency={folder}" for folder in self.folders_of_libraries(crates)]
        if copy.is_source:
            words += [f"--lib={crate.name}:{','.join([*of_kit, *crate.deps])}={crate.name}/{crate.root}" for crate in crates]
        elif crates[0].is_static:
            words.append("--crate-type=staticlib")
        logic = f"--antt-project={kit}/rattle/logic/antt-project.json"
        return [*words, logic, f"--logic-built={kit}/logic_built"]

    def folder_of(self, library):
        """The folder that has a library: its crate's, or the kit's."""
        crate = self.project.crates.get(library)
        return crate.rlib if crate else self.project.kit / "rlibs"

    def folders_of_libraries(self, but):
        others = [crate.rlib for crate in self.project.crates.values() if crate not in but and crate.rlib.is_dir()]
        return [self.project.kit / "rlibs", *others]

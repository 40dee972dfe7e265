"""Programs that measure single calls of the crates; their sources and proofs stand in bench/ as texts."""
import os
import shutil
import subprocess

from programs import TOP, measure


def built(folder, name, libraries, files, words):
    """The path of a program of these files, each with its place in the crate, which is proved and built in a copy of the repository's crates, and
    run once with these words."""
    shutil.copytree(os.path.join(TOP, "crates"), os.path.join(folder, "crates"), ignore=shutil.ignore_patterns("out"))
    shutil.copy(os.path.join(TOP, "HANDLES"), folder)
    with open(os.path.join(TOP, "crates.txt")) as given, open(os.path.join(folder, "crates.txt"), "w") as crates:
        crates.write(f"{given.read()}{name}: {libraries}\n")
    crate = os.path.join(folder, "crates", name)
    for source, place in files.items():
        path = os.path.join(crate, place)
        os.makedirs(os.path.dirname(path), exist_ok=True)
        shutil.copy(os.path.join(TOP, "bench", source), path)
    subprocess.run(["git", "init", "-q", folder], check=True)
    subprocess.run(["rt", "run", "--", *words], cwd=crate, stdout=subprocess.DEVNULL, check=True)
    return os.path.join(crate, "out", name)


def seconds(*words):
    """The middle one of three runs."""
    return sorted(measure(words)[1] for _ in range(3))[1]

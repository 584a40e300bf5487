"""What edit_times.py and goal_times.py share: checks of one crate, as rt makes them, over kept work."""
import os
import pathlib
import resource
import shutil
import subprocess
import sys

TOP = os.path.dirname(os.path.dirname(os.path.abspath(__file__)))
sys.path.append(f"{TOP}/tools")
import kit
import planted


def check(crate, folder, kept, *more):
    """Checks a crate that lies in this folder over kept work: what it said, its status, and its processor seconds."""
    before = resource.getrusage(resource.RUSAGE_CHILDREN)
    words = kit.words(crate, kit.libraries(), folder, lambda library: f"{TOP}/crates/{library}/out/rlib")
    command = [f"{kit.KIT}/bin/rattle", "check", *words, "--incremental", kept, *more]
    ran = subprocess.run(command, cwd=folder, stdin=subprocess.DEVNULL, stdout=subprocess.PIPE, stderr=subprocess.STDOUT, text=True, errors="replace")
    after = resource.getrusage(resource.RUSAGE_CHILDREN)
    return ran.stdout, ran.returncode, after.ru_utime + after.ru_stime - before.ru_utime - before.ru_stime


def copied(crate, to):
    """Copies what a check of the crate reads."""
    shutil.rmtree(to, ignore_errors=True)
    os.makedirs(to)
    for part in ("src", "specs", "proofs"):
        if os.path.isdir(f"{TOP}/crates/{crate}/{part}"):
            shutil.copytree(f"{TOP}/crates/{crate}/{part}", f"{to}/{part}")
    return to


def kept_by_rt(crate, to):
    """Copies what `rt check` in the crate's folder keeps, so that a check begins with it; nothing if it keeps nothing."""
    kept = f"{TOP}/crates/{crate}/out/incremental"
    if os.path.isdir(kept):
        shutil.copytree(kept, to, symlinks=True)
    return to


def edit(path, folder):
    """Makes an edit in the crate that lies in this folder."""
    made = planted.applied(planted.read(pathlib.Path(path), ""), folder)
    assert isinstance(made, dict), made
    for file, text in made.items():
        pathlib.Path(folder, file).write_text(text, encoding="utf-8")

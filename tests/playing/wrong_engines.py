"""Edits that turn what the engine or the live page's script does: each has to be noticed."""

import contextlib
import functools
import glob
import os
import shutil
import subprocess
import sys
import tempfile

from . import live_plays
from .tests import TOP

WRONG = f"{TOP}/engine/wrong"
# What a change of these files is compiled into.
COMPILED = {"engine/host.c", "engine/narrow"}
SECONDS = 400


def said_in(path):
    """An edit: lines `file:`, `old:` and `new:`, and in `by:` the play, or the script of tests with its words, that notices."""
    with open(path, encoding="utf-8") as file:
        return dict(line.rstrip("\n").split(": ", 1) for line in file if ": " in line)


def edited(said, name, room):
    """Copies what the live page is made of, with the edit, if there is one. Answers the folder."""
    top = tempfile.mkdtemp(dir=room)
    shutil.copytree(f"{TOP}/engine", f"{top}/engine")
    shutil.copytree(f"{TOP}/crates/bz_page/page", f"{top}/crates/bz_page/page")
    os.symlink(f"{TOP}/examples", f"{top}/examples")
    if said is None:
        return top
    with open(f"{top}/{said['file']}", encoding="utf-8", newline="") as file:
        text = file.read()
    if text.count(said["old"]) != 1:
        raise ValueError(f"{name}: its old text stands {text.count(said['old'])} times in {said['file']}")
    with open(f"{top}/{said['file']}", "w", encoding="utf-8", newline="") as file:
        file.write(text.replace(said["old"], said["new"]))
    return top


def fails(top, module, words):
    """Whether a script of tests fails on the module with the engine of this folder."""
    script, *files = words
    how = {"stdout": subprocess.DEVNULL, "stderr": subprocess.DEVNULL, "env": {**os.environ, "ENGINE": f"{top}/engine"}}
    ran = subprocess.run([sys.executable, f"{TOP}/tests/{script}", module, *files], timeout=SECONDS, check=False, **how)
    return ran.returncode != 0


def faults_of(play, way, browser, program, top, module):
    """What a play finds wrong with the live page of this folder. Whatever goes wrong with it is a fault."""
    subprocess.run([f"{top}/engine/make-page", module, "checked", f"{top}/live.html", "0" * 16], check=True)
    browser = browser()
    try:
        return live_plays.play(play, browser, program, f"{top}/live.html", way)
    except Exception as fault:
        return [f"{type(fault).__name__}: {fault}"]


def is_faulty(by, browser, program, top, module):
    """Whether what a line `by:` names finds fault with the engine and the page of this folder, and this module."""
    name, *words = by.split()
    play = next((it for it in live_plays.PLAYS if it.__name__ == name), None)
    if play is None:
        return fails(top, module, [name, *words])
    return bool(faults_of(play, "".join(words), browser, program, top, module))


def linked(top, module):
    """The module with the host.c and the narrow of this folder, or None where it can't be made."""
    wrong, given = f"{top}/wrong.wasm", f"{module.removesuffix('.wasm')}.o"
    ran = subprocess.run([f"{top}/engine/compile", "-", wrong, given], stderr=subprocess.DEVNULL, check=False)
    return wrong if ran.returncode == 0 else None


def is_noticed(path, browser, program, module, room):
    """Tries an edit."""
    said = said_in(path)
    top = edited(said, os.path.basename(path), room)
    if said["file"] in COMPILED:
        module = linked(top, module)
    return module is None or is_faulty(said["by"], browser, program, top, module)


def test_all(program, kind, module, names):
    """Tries the edits of these names, or all. Answers whether each was noticed, by what finds no fault without it. A browser of
    this kind is started where a play is first wanted."""
    paths = [f"{WRONG}/{name.removesuffix('.edit')}.edit" for name in names] or sorted(glob.glob(f"{WRONG}/*.edit"))
    passed = failed = 0
    live_plays.SECONDS = 4
    with tempfile.TemporaryDirectory() as room, contextlib.ExitStack() as stack:
        browser = functools.cache(lambda: stack.enter_context(kind()))
        plain = edited(None, "", room)
        is_sound = functools.cache(lambda by: not is_faulty(by, browser, program, plain, module))
        for path in paths:
            by = said_in(path)["by"]
            found = "noticed" if is_noticed(path, browser, program, module, room) else "NOT NOTICED"
            if found == "noticed" and not is_sound(by):
                found = f"NOT TRIED: {by} finds fault without it"
            passed, failed = passed + (found == "noticed"), failed + (found != "noticed")
            print(f"{os.path.basename(path)}: {found}", flush=True)
    print(f"{passed} passed, {failed} failed")
    return failed == 0

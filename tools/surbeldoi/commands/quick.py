"""A quick test for whoever changes something: no proof, in under five minutes.

It does three things at once. It runs test_program as it stands by `rt try`, over the shorter of its scripts, and compares what it prints
of each with crates/test_program/stdout. It plays 300 random scenes and 300 faulty scripts by the program that is there, or one that it
compiles (tools/fuzz.py), and as many scenes in threads where the proved program is there. And it runs the tests of the tools, several
at once, which look whether each must-fail edit still fits its file. Only `.ci/run` is the gate.
"""

import glob
import os
import re
import subprocess
import sys
import tempfile
from concurrent.futures import ThreadPoolExecutor
from typing import NamedTuple

from surbeldoi import TOP
from surbeldoi.build.compiling import without_hints
from surbeldoi.commands import fuzz, words
from surbeldoi.commands.words import Command

WORKED = os.path.join(TOP, "crates", "test_program")
# A script of more bytes is left to the gate: what `rt try` runs is checked code, and it may print a MiB.
MOST_BYTES = 1000
SHORT_SCENE = os.path.join(TOP, "scenes", "red.sf")
# How long `rt try` may play for: it has a part of the processors, as the other parts are done at the same time.
MOST_SECONDS = "600"
# How much is shown of what `rt try` says.
MOST_SHOWN = 2000
TITLE = re.compile(r"^== (\S+)", re.M)
# The live runs with gates take more scripts than are chosen here, and are printed only where all of these are there.
LIVE = re.compile(r"== \S+ live\b")
TOOLS, TESTS = os.path.join(TOP, "tools"), os.path.join(TOP, "tools", "tests")
AT_ONCE = os.cpu_count() or 1


class Part(NamedTuple):
    """What a part of the quick test comes to."""

    lines: list
    is_right: bool


def short_scripts():
    """The scripts that are played, with what lies beside each; those that are put together or fail by count are left out."""
    chosen = []
    for script in sorted(glob.glob(os.path.join(WORKED, "data", "*.sf"))):
        stem = script[:-len(".sf")]
        beside = [path for path in glob.glob(glob.escape(stem) + ".*") if path != script]
        if os.path.getsize(script) <= MOST_BYTES and all(path.endswith((".words", ".lines")) for path in beside):
            chosen += [script, *beside]
    return chosen


def sections(text):
    """What is printed of each run, by its title, in order; runs of one script stand under one title each."""
    starts = [found.start() for found in TITLE.finditer(text)] + [len(text)]
    return [(TITLE.match(text[begin:]).group(1), text[begin:end]) for begin, end in zip(starts, starts[1:])]


def differing(printed, stored, names):
    """The titles of runs of these scripts that were printed otherwise than they are stored, or not at all, and how many runs there are."""
    wanted = [(title, text) for title, text in sections(stored) if title.partition(":")[0] in names and not LIVE.match(text)]
    found = sections(printed)
    return [title for title, text in wanted if (title, text) not in found], len(wanted)


def told_of(ran, stored, names):
    """What a run of test_program comes to, in lines, how many runs of these scripts there are, and how many differ. Where nothing was
    printed, the reason is told first, and no run by its name."""
    wrong, many = differing(ran.stdout, stored, names)
    if not wrong:
        return [], many, 0
    reason = [f"test_program ended with status {ran.returncode}: {ran.stderr.strip()[-MOST_SHOWN:] or 'it says nothing of it'}"] if ran.returncode else []
    if not ran.stdout:
        return reason + ["test_program: nothing was printed"], many, len(wrong)
    return reason + [f"test_program: {title} differs" for title in wrong], many, len(wrong)


def try_runs():
    """Tells which runs are not as they are stored, and how many are."""
    files = short_scripts()
    names = {os.path.basename(path)[:-len(".sf")] for path in files if path.endswith(".sf")}
    given = [word for path in files for word in ("--data", f"{os.path.basename(path)}={path}")]
    with tempfile.TemporaryDirectory(prefix="surbeldoi-") as folder, without_hints(folder):
        ran = subprocess.run(["rt", "try", "--seconds", MOST_SECONDS, *given], cwd=WORKED, env={**os.environ, "TMPDIR": folder},
                             stdin=subprocess.DEVNULL, stdout=subprocess.PIPE, stderr=subprocess.PIPE, text=True)
    with open(os.path.join(WORKED, "stdout"), encoding="utf-8") as file:
        lines, many, wrong = told_of(ran, file.read(), names)
    return Part([*lines, f"{many - wrong} of {many} worked runs are as they are stored"], many > 0 and not wrong)


def by_python(*given):
    """What one of the tools, or a module of Python, ends with and says, all in one."""
    return subprocess.run([sys.executable, "-B", *given], cwd=TOP, stdin=subprocess.DEVNULL, stdout=subprocess.PIPE, stderr=subprocess.STDOUT, text=True)


def try_scenes():
    """Random scenes, played by the program that is there, or by one that tools/run.py compiles first."""
    said = ""
    if fuzz.program_of(None) is None:
        with tempfile.TemporaryDirectory() as folder:
            compiled = by_python(os.path.join(TOOLS, "run.py"), SHORT_SCENE, folder)
            said = compiled.stdout if compiled.returncode else ""
    played = by_python(os.path.join(TOOLS, "fuzz.py"), "--brief", "--jobs", str(AT_ONCE))
    return Part((said + played.stdout).splitlines(), played.returncode == 0)


def told_of_tests(ran):
    """What runs of tests come to, each with its file: of those that fail all that they say, then how many there are."""
    failed = [one for _, one in ran if one.returncode]
    lines = [line for name, one in ran if one.returncode for line in (f"{name}:", *one.stdout.splitlines())]
    return Part([*lines, f"{len(ran) - len(failed)} of {len(ran)} files of tests of the tools pass"], bool(ran) and not failed)


def try_tools():
    """The tests of the tools: those of each file in a process of their own, the longest files first."""
    files = sorted(glob.glob(os.path.join(glob.escape(TESTS), "test_*.py")), key=os.path.getsize, reverse=True)
    names = [os.path.basename(file) for file in files]
    with ThreadPoolExecutor(AT_ONCE) as pool:
        return told_of_tests(list(zip(names, pool.map(lambda name: by_python("-m", "unittest", "discover", "-q", "-s", TOOLS, "-p", name), names))))


PARTS = (try_runs, try_scenes, try_tools)


def run(_):
    is_right = True
    with ThreadPoolExecutor(len(PARTS)) as pool:
        for part in [pool.submit(part) for part in PARTS]:
            print("\n".join(part.result().lines), flush=True)
            is_right = part.result().is_right and is_right
    return 0 if is_right else 1


def main(given):
    about, more = __doc__.strip().split("\n\n", 1)
    return words.called("quick.py", Command(about, lambda parser: None, run, more=more), given)

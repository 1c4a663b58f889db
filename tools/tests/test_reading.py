"""Tests of scenes.py: a script is read as a scene where the program says that it is one."""

import os
import unittest

from surbeldoi.script.scenes import NoScene, read_scene
from tests.test_checking import contents


# What begins a script of test_script: one of its own, one put together of the last one and more lines, one that is also cut.
SCRIPTS = (b"==", b"=+", b"=<")


def table_of_scripts():
    """The scripts that test_script reads, each with what is said of it there."""
    folder = os.path.join("crates", "test_script")
    titles, scripts, base, is_script = [], [], b"", False
    for line in contents(folder, "stdin").split(b"\n")[:-1]:
        if line[:1] == b"=":
            is_script = line[:2] in SCRIPTS
        if not is_script:
            continue
        if line[:1] == b"=":
            base = scripts[-1] if titles and titles[-1][:2] != b"=+" else base
            titles.append(line)
            scripts.append(base + line[3:] + b"\n" if line[:2] == b"=+" else b"")
        elif line[:1] == b"*":
            count, _, text = line[1:].partition(b" ")
            scripts[-1] += (text + b"\n") * int(count)
        else:
            scripts[-1] += line + b"\n"
    said = [line.rpartition(b": ")[2] for line in contents(folder, "stdout").split(b"\n") if line[:2] in SCRIPTS]
    assert len(said) == len(scripts)
    return zip(scripts, said)


def is_read(script):
    try:
        return read_scene(script) is not None
    except NoScene:
        return False


class Scenes(unittest.TestCase):
    def test_scripts_are_scenes_where_the_program_says_so(self):
        count = 0
        for script, said in table_of_scripts():
            self.assertEqual(is_read(script), said == b"scene", script[:300])
            count += said == b"scene"
        self.assertGreater(count, 8)


if __name__ == "__main__":
    unittest.main()

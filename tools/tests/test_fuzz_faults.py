"""Tests of faulty scripts: the reader that tells their first fault, and the random ones."""

import re
import unittest

from surbeldoi.fuzz.faults import faulty_script
from surbeldoi.script.first_fault import (BAD_WORD, EXTRA_WORD, LIMIT, MISSING_WORD, NOT_UTF8, OUT_OF_ORDER, TWICE, UNDEFINED, UNENDED, UNKNOWN_WORD,
                                          WRONG_VERSION, first_fault)
from surbeldoi.script.scenes import MOST_BYTES, NoScene, read_scene
from tests.test_checking import contents
from tests.test_checking_runs import script_of

HEAD = "scene 1 2 1 16666667\n"
SECOND = "scene 2 2 1 16666667\n"
QUEUE = HEAD + "timeline 3\nqueue 1 4 4\npicture 2 4 4\nactor 1\n"
CASES = (
    (HEAD + "end\n", None), (HEAD + "# x\n\n  \t\r\nend", None), ("", (1, 0, UNENDED)), (HEAD, (2, 0, UNENDED)), ("end\n", (1, 1, OUT_OF_ORDER)),
    ("scene 3 2 1 16666667\nend\n", (1, 2, WRONG_VERSION)), ("scene 0 2 1 16666667\nend\n", (1, 2, BAD_WORD)), ("scene 1 2 1\nend\n", (1, 5, MISSING_WORD)),
    ("scene 1 1025 1 16666667\nend\n", (1, 3, BAD_WORD)), (HEAD + HEAD + "end\n", (2, 1, OUT_OF_ORDER)), (HEAD + "end\nend\n", (3, 1, OUT_OF_ORDER)),
    (HEAD + "end x\n", (2, 2, EXTRA_WORD)), (HEAD + "ends\n", (2, 1, UNKNOWN_WORD)), (HEAD + "fill 0 0 1 1 00000000\nend\n", (2, 1, OUT_OF_ORDER)),
    (HEAD + "timeline 1\ntimeline 01\nend\n", (3, 2, TWICE)), (HEAD + "timeline 65\nend\n", (2, 2, BAD_WORD)), (HEAD + "queue 1 1 1\ntimeline 1\nend\n", (3, 1, OUT_OF_ORDER)),
    (HEAD + "actor 17\nend\n", (2, 2, BAD_WORD)), (SECOND + "actor 17\nend\n", None), (HEAD + "actor 1\nactor 1\nend\n", (3, 2, TWICE)), (HEAD + "tx 1\nend\n", (2, 1, OUT_OF_ORDER)),
    (HEAD + "order v\nend\n", None), (HEAD + "order\nend\n", (2, 2, MISSING_WORD)), (HEAD + "order v*257\nend\n", (2, 2, BAD_WORD)), (HEAD + "order v 3\nend\n", (2, 3, UNDEFINED)),
    (HEAD + "display 2 1 1 0\nend\n", (2, 1, UNKNOWN_WORD)), (SECOND + "display 1 1 1 0\nend\n", (2, 2, BAD_WORD)), (SECOND + "stack 1 0\nstack 1 1\nend\n", (3, 2, TWICE)),
    (SECOND + "".join(f"mirror {n} 1\n" for n in range(1, 10)) + "end\n", (10, 1, LIMIT)), (HEAD + "picture 1 1 1 format rgbx\nend\n", (2, 5, EXTRA_WORD)),
    (SECOND + "picture 1 1 1 format rgbx\nend\n", None), (SECOND + "picture 1 1 1 format rgb\nend\n", (2, 6, BAD_WORD)), (SECOND + "picture 1 1 1 x\nend\n", (2, 5, UNKNOWN_WORD)),
    (HEAD + "picture 1 1 1\n" + "fill 0 0 1 1 00000000\n" * 1025 + "end\n", (1027, 1, LIMIT)), (HEAD + "actor 1\n" + "tx 1\n" * 4097 + "end\n", (4099, 1, LIMIT)),
    (QUEUE + "dequeue 1 as s\nend\n", None), (QUEUE + "dequeue 2 as s\nend\n", (6, 2, UNDEFINED)), (QUEUE + "dequeue 1 at s\nend\n", (6, 3, UNKNOWN_WORD)),
    (QUEUE + "dequeue 1 as 1s\nend\n", (6, 4, BAD_WORD)), (QUEUE + "dequeue 1 as s size 1\nend\n", (6, 7, MISSING_WORD)), (QUEUE + "dequeue 1 as s x\nend\n", (6, 5, UNKNOWN_WORD)),
    (QUEUE + "dequeue 1 as s size 1 1 1\nend\n", (6, 8, EXTRA_WORD)), (QUEUE + "request s\nend\n", (6, 2, UNDEFINED)), (QUEUE + "draw s 2\nend\n", (6, 2, UNDEFINED)),
    (QUEUE + "".join(f"dequeue 1 as n{n}\n" for n in range(33)) + "end\n", (38, 4, LIMIT)), (QUEUE + "signal 4 1\nend\n", (6, 2, UNDEFINED)),
    (QUEUE + "dequeue 1 as s\nqueue s 2 fence 3 1 time 1\nend\n", (7, 7, UNKNOWN_WORD)), (QUEUE + "dequeue 1 as s\nqueue s 2 time 1 crop 0 0 1 1 fence 3 1 fence 3 2\nend\n", None),
    (QUEUE + "set 1 1\nend\n", (6, 4, MISSING_WORD)), (QUEUE + "set 1 1 creates\nend\n", (6, 4, UNKNOWN_WORD)), (QUEUE + "set 1 1 create x 0\nend\n", (6, 5, UNKNOWN_WORD)),
    (QUEUE + "set 1 1 create colour LAYER\nend\n", (6, 6, BAD_WORD)), (QUEUE + "set 1 1 crop x\nend\n", (6, 5, BAD_WORD)), (QUEUE + "set 1 1 crop none 1\nend\n", (6, 6, EXTRA_WORD)),
    (QUEUE + "set 1 1 crop 1 1 1\nend\n", (6, 8, MISSING_WORD)), (QUEUE + "set 1 1 z -2147483649\nend\n", (6, 5, BAD_WORD)), (QUEUE + "set 1 1 relative LAYER 0\nend\n", (6, 5, BAD_WORD)),
    (QUEUE + "queue 2 4 4\nend\n", (6, 2, BAD_WORD)), (QUEUE + "order 1\ntx 1\nend\n", (7, 1, OUT_OF_ORDER)), (QUEUE + "tx 000000000000000000001\nend\n", (6, 2, BAD_WORD)),
)


def stored_faults():
    """The scripts that the stored runs of test_program refuse, each with the fault that was told."""
    stored = contents("crates", "test_program", "stdout").decode()
    for title, told in re.findall(r"^== (.*) status 2\nSFLT ([0-9 ]+)$", stored, flags=re.M):
        yield title, tuple(map(int, told.split()))


class Reader(unittest.TestCase):
    def test_the_first_fault(self):
        for script, wanted in CASES:
            self.assertEqual(first_fault(script.encode()), wanted, script[-60:])

    def test_bytes_that_are_no_text(self):
        for script, wanted in ((b"# \xff\n" + HEAD.encode() + b"end\n", None), (HEAD.encode() + b"timelin\xff 1\nend\n", (2, 0, NOT_UTF8)),
                               (HEAD.encode() + b"timeline 1 \xc3\nend\n", (2, 0, NOT_UTF8)), (HEAD.encode() + b"\xe2\x80\x83 1\nend\n", (2, 1, UNKNOWN_WORD)),
                               (b"#" * (MOST_BYTES + 1), (0, 0, LIMIT)), (b"#" * MOST_BYTES, (2, 0, UNENDED))):
            self.assertEqual(first_fault(script), wanted, script[-20:])

    def test_the_faults_that_the_program_told(self):
        count = 0
        for title, told in stored_faults():
            self.assertEqual(first_fault(script_of(title)), told, title)
            count += 1
        self.assertGreater(count, 25)

    def test_it_and_the_reader_of_scenes_are_at_one(self):
        for seed in range(1, 151):
            script = faulty_script(seed)
            fault = first_fault(script)
            if fault is None:
                read_scene(script)
                continue
            with self.assertRaises(NoScene, msg=f"seed {seed}") as refused:
                read_scene(script)
            if fault.line and fault.cause != UNENDED:
                self.assertIn(f"line {fault.line} ", str(refused.exception), f"seed {seed}")


class Faulty(unittest.TestCase):
    def test_each_cause_is_met(self):
        causes = [first_fault(faulty_script(seed)) for seed in range(1, 301)]
        met = {fault.cause for fault in causes if fault}
        self.assertLessEqual(set(range(1, 12)) - met, {TWICE, LIMIT, WRONG_VERSION})
        self.assertLess(causes.count(None), 90)


if __name__ == "__main__":
    unittest.main()

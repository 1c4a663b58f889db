"""Tests of sf_main on a small stack; they need the program that `rt run` or `rt ci` built."""

import subprocess
import sys
import unittest

from surbeldoi.commands import run
from surbeldoi.records import stream

PROGRAM = run.built(run.TOP)
STACK = 256 << 10
LAYERS = 1022
LIMITED = "import os, resource, sys; resource.setrlimit(resource.RLIMIT_STACK, (int(sys.argv[1]),) * 2); os.execv(sys.argv[2], sys.argv[2:])"


def transaction(operations):
    return ["tx 1", *(f"set 1 {operation}" for operation in operations), "apply 1 token 1"]


def script():
    """A container with as many layers as a tree may have beside it, and a mirror of it: each layer and each copy of one is drawn, lies
    over others, and has another place in the second frame."""
    layers = range(3, LAYERS + 3)
    made = ["1 create container 0", "2 create container 0"]
    for layer in layers:
        made += [f"{layer} create colour 2", f"{layer} crop 0 0 40 40", f"{layer} position {layer % 20} {layer % 17}"]
    moved = [f"{layer} position {(layer + 3) % 20} {(layer + 5) % 17}" for layer in layers]
    turns = transaction(made), transaction(moved)
    order = " v ".join(" ".join(f"1*{min(256, len(steps) - done)}" for done in range(0, len(steps), 256)) for steps in turns)
    return "\n".join(["scene 2 64 64 16666667", "mirror 1 2", "actor 1", *turns[0], *turns[1], f"order {order} v", "end", ""]).encode()


def frames(data):
    """The pixels of each frame."""
    return [record.fields["pixels"] for record in stream.read(data)[0] if record.tag == "FRAM"]


@unittest.skipUnless(PROGRAM, "sf_main is not built")
class SmallStack(unittest.TestCase):
    def test_many_layers_that_all_move(self):
        wanted = frames(subprocess.run([PROGRAM], input=script(), stdout=subprocess.PIPE, timeout=60, check=True).stdout)
        self.assertEqual(len(wanted), 2)
        for words in ((), ("--workers", "4"), ("--run", "live"), ("--run", "live", "--workers", "4")):
            with self.subTest(words=words):
                command = [sys.executable, "-c", LIMITED, str(STACK), PROGRAM, *words]
                ended = subprocess.run(command, input=script(), stdout=subprocess.PIPE, stderr=subprocess.PIPE, timeout=60)
                self.assertEqual((ended.returncode, ended.stderr), (0, b""), f"{2 * LAYERS} drawn layers on a stack of {STACK} bytes")
                self.assertEqual(frames(ended.stdout), wanted)


if __name__ == "__main__":
    unittest.main()

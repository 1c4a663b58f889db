"""Sources that a test writes to a folder of its own."""

import os
import tempfile

from surbeldoi.build.citing import Sources


def written_sources(test, files):
    """The sources with these texts by their paths, in a folder that goes with the test."""
    room = tempfile.TemporaryDirectory()
    test.addCleanup(room.cleanup)
    for path, text in files.items():
        os.makedirs(os.path.dirname(os.path.join(room.name, path)), exist_ok=True)
        with open(os.path.join(room.name, path), "w", encoding="utf-8") as file:
            file.write(text)
    return Sources(room.name)

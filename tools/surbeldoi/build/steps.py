"""What the proof of a crate took, in the checker's own steps: they are the same however busy the machine is.

`rt check` keeps a record of each module that it checked, in the crate's out/incremental. A record has the steps of each declaration, and
of each call of a tactic in it. It keeps those of an earlier text too, so that only a check that began without records counts one text.
"""

import collections
import glob
import json
import os
import re
from typing import NamedTuple

from surbeldoi import TOP

RECORDS = os.path.join("out", "incremental", "*", "records", "*.decls.oantt")
# A module of a crate, without the name of its library.
MODULE = re.compile(r"Rattle-\w+?(?:-(?:proofs|specs))?\.(.+)\.decls\.oantt")
# What stands behind the kind of a module, which is its last word.
NUMBERS = re.compile(r"-[-\d]+$")
# Where a list of declarations may begin.
LIST = '[{"'
MILLION = 1_000_000


class Declaration(NamedTuple):
    """A declaration that was checked: its module, its name, its steps, and the steps of its calls of tactics, each with the tactic."""

    module: str
    name: str
    steps: int
    calls: tuple


def lists_in(text):
    """The lists of objects that stand as JSON among other bytes."""
    decoder, at = json.JSONDecoder(), text.find(LIST)
    while at >= 0:
        try:
            found, end = decoder.raw_decode(text, at)
        except ValueError:
            found, end = [], at + 1
        yield found
        at = text.find(LIST, end)


def declarations_in(module, record):
    """The declarations of a record."""
    for one in (one for found in lists_in(record.decode("utf-8", "replace")) for one in found):
        if "steps" in one and "name" in one:
            calls = tuple((tactic, steps) for tactic, _, steps in one.get("calls", ()))
            yield Declaration(module, one["name"], sum(one["steps"]), calls)


def declarations_of(crate, top=TOP):
    """All declarations that the records of a crate have, the dearest first."""
    found = []
    for path in sorted(glob.glob(os.path.join(top, "crates", crate, RECORDS))):
        match = MODULE.fullmatch(os.path.basename(path))
        with open(path, "rb") as file:
            found += declarations_in(match[1] if match else os.path.basename(path), file.read())
    return sorted(found, key=lambda one: -one.steps)


def kinds_of(declarations):
    """The steps of each kind of module, the dearest first."""
    steps = collections.Counter()
    for one in declarations:
        steps[NUMBERS.sub("", one.module.rpartition(".")[2])] += one.steps
    return steps.most_common()


def dear_calls(declarations):
    """The calls of tactics, the dearest first: their steps, the tactic and the declaration."""
    found = [(steps, tactic, one) for one in declarations for tactic, steps in one.calls]
    return sorted(found, key=lambda call: -call[0])


def in_millions(steps):
    return f"{steps / MILLION:8.2f}"


def lines_of(crate, declarations, worst=10):
    """What a crate's proof took, as lines: the sum, by kinds, and the dearest declarations and calls of tactics."""
    total = sum(one.steps for one in declarations)
    return [
        f"{crate}: {total / MILLION:.1f} million steps in {len(declarations):,} declarations",
        *(f"{in_millions(steps)}  {kind}" for kind, steps in kinds_of(declarations)[:worst]),
        "",
        "Dearest declarations:",
        *(f"{in_millions(one.steps)}  {one.name} ({one.module})" for one in declarations[:worst]),
        "",
        "Dearest calls of tactics:",
        *(f"{in_millions(steps)}  {tactic} in {one.name} ({one.module})" for steps, tactic, one in dear_calls(declarations)[:worst]),
    ]

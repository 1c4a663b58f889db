"""The rooms of the repository: crates.txt groups its crates under headings, from the bottom up.

A heading is one line, `# NAME: what the room is for. Uses ROOM, ROOM.` A crate may use the crates above it in its own room,
the rooms that the heading names, and what these may use.
"""

import os
import re
import textwrap
from typing import NamedTuple

from surbeldoi import TOP

HEADING = re.compile(r"# ([A-Za-z]+): (.+)\. Uses (no other room|[A-Za-z]+(?:, [A-Za-z]+)*)\.")
# How many letters a line of a box has.
BOX = 44
# A crate with more paths than this below it takes older kits minutes to read, each time it is checked.
MOST_PATHS = 5000
MEND = ("list in crates.txt only what the crate stands on directly, and let those crates hand on what it names besides, by `pub use` "
        "lines in specs/Lib.antt, proofs/Lib.antt and src/lib.rt (docs/RECIPES.md, \"A new module or crate\")")


class Room(NamedTuple):
    """A room: its name, what it is for, the rooms that its heading names, and its crates with what each lists."""

    name: str
    says: str
    uses: tuple
    crates: dict


class BadMap(Exception):
    """A line of crates.txt that is out of place."""


def heading_of(line, number):
    """The room that a comment line begins."""
    found = HEADING.fullmatch(line)
    if not found:
        raise BadMap(f"crates.txt, line {number}: a heading is `# NAME: what the room is for. Uses ROOM, ROOM.`")
    name, says, uses = found.groups()
    return Room(name, says, () if uses == "no other room" else tuple(uses.split(", ")), {})


def rooms_of(text):
    """The rooms of crates.txt, from the bottom up. Comments above the first heading introduce the file."""
    rooms = []
    for number, line in enumerate(text.splitlines(), 1):
        listed, hash_sign, _ = line.partition("#")
        if hash_sign and not listed.strip() and (rooms or HEADING.fullmatch(line)):
            rooms.append(heading_of(line, number))
        elif listed.strip():
            if not rooms:
                raise BadMap(f"crates.txt, line {number}: a crate stands above the first heading of a room")
            add(rooms, listed, number)
    return rooms


def add(rooms, listed, number):
    """Adds a crate's line to the newest room."""
    words, _, libraries = listed.partition(":")
    name = words.split()[0]
    if any(name in room.crates for room in rooms):
        raise BadMap(f"crates.txt, line {number}: {name} is listed a second time")
    rooms[-1].crates[name] = libraries.split()


def read_rooms(top=TOP):
    with open(os.path.join(top, "crates.txt"), encoding="utf-8") as file:
        return rooms_of(file.read())


def folders(top=TOP):
    """The crates that have a folder."""
    return sorted(os.listdir(os.path.join(top, "crates")))


def lists_of(rooms):
    """What each crate lists of this repository, from the bottom up."""
    lists = {name: libraries for room in rooms for name, libraries in room.crates.items()}
    return {name: [one for one in libraries if one in lists] for name, libraries in lists.items()}


def reached(rooms):
    """The rooms that each room may use: those that its heading names, and what these may use."""
    found = {}
    for room in rooms:
        found[room.name] = {one for used in room.uses for one in {used} | found.get(used, set())}
    return found


def heading_faults(rooms):
    """What is wrong with what the headings say of one another."""
    told, above = [], []
    may = reached(rooms)
    for room in rooms:
        if room.name in above:
            told.append(f"two rooms have the name {room.name}")
        told += [f"{room.name} uses {used}, which is no room below it" for used in room.uses if used not in above]
        told += [f"{room.name} names {used}, which another room that it names may use already"
                 for used in room.uses if any(used in may.get(other, ()) for other in room.uses if other != used)]
        above.append(room.name)
    return told


def crate_faults(rooms):
    """What is wrong with what crates list: whatever stands below a crate, or in a room that its own may not use."""
    told, seen = [], {}
    lists, may = lists_of(rooms), reached(rooms)
    for room in rooms:
        crossed = set()
        for name in room.crates:
            for one in lists[name]:
                if one not in seen:
                    told.append(f"{name} stands above {one}, which it uses")
                elif seen[one] != room.name and seen[one] not in may[room.name]:
                    told.append(f"{name} of {room.name} uses {one} of {seen[one]}, which the heading does not allow")
                else:
                    crossed.add(seen[one])
            seen[name] = room.name
        told += [f"{room.name} names {used}, of which none of its crates lists one" for used in room.uses if used not in crossed]
    return told


def paths_of(lists):
    """The paths of libraries below each crate: of each that it lists the one to it, and those below it."""
    counted = {}

    def count(name):
        if name not in counted:
            counted[name] = sum(1 + count(one) for one in lists[name])
        return counted[name]

    for name in lists:
        count(name)
    return counted


def path_faults(rooms, most=MOST_PATHS):
    return [f"{name} has {paths} paths of libraries below it, more than {most}: {MEND}"
            for name, paths in paths_of(lists_of(rooms)).items() if paths > most]


def lines_with(names):
    """Names in lines of a box."""
    return textwrap.wrap(", ".join(names), BOX)


def diagram(rooms):
    """The picture of the rooms, each with its crates and arrows to what it uses, as a page shows it."""
    boxes = [f'  {room.name}["<b>{room.name}</b><br/>{"<br/>".join(lines_with(room.crates))}"]' for room in rooms]
    arrows = [f"  {room.name} --> {' & '.join(room.uses)}" for room in rooms if room.uses]
    return "\n".join(["```mermaid", "flowchart TD", *boxes, *arrows, "```"])

"""What one reads to believe the headline: the clauses of the public call `run`, the definitions that they cite, and those
that these cite. Lemmas, proofs, bodies and private contracts are no part of it; std's definitions are the toolchain's.
"""

import html
import os
import re
from typing import NamedTuple

from surbeldoi import TOP
from surbeldoi.build.citing import SRC, Place, Sources
from surbeldoi.build.rooms import read_rooms

HEADLINE = Place("sf_app", SRC, "session", "run")
SIGNATURE = re.compile(r"pub fn run<(.*?)>\(")

STYLE = """
body { font: 16px/1.5 system-ui, sans-serif; max-width: 62rem; margin: 2rem auto; padding: 0 1rem; color: #222; }
pre { background: #f5f5f2; padding: .6rem .8rem; overflow-x: auto; font-size: 13px; line-height: 1.45; margin: .3rem 0 1.4rem; }
h2 { border-bottom: 2px solid #888; margin-top: 3rem; }
h3 { margin: 2rem 0 .2rem; font-size: 1rem; }
p.head { color: #666; }
a { color: #0550ae; text-decoration: none; }
pre b { color: #8a1c1c; }
:target { background: #fff3c4; }
td, th { padding: 0 1rem .1rem 0; text-align: left; }
td.n { text-align: right; }
"""
TOP_OF_PAGE = ('<!doctype html>\n<html lang="en"><meta charset="utf-8"><title>What the headline rests on</title>'
               f"<style>{STYLE}</style>\n")


def headline(sources):
    """The signature of the public call with its clauses, line by line."""
    with open(os.path.join(sources.top, sources.path(*HEADLINE[:3])), encoding="utf-8") as file:
        lines = file.read().splitlines()
    begin = next(at for at, line in enumerate(lines) if SIGNATURE.match(line))
    return lines[begin:lines.index("{", begin)]


def clauses(lines):
    """The lines of a signature from its first clause on."""
    begin = next(at for at, line in enumerate(lines) if line.strip().startswith(("ensures", "requires")))
    return lines[begin:]


def traits_cited(sources, lines):
    """The traits of the type parameters whose parts the clauses speak of."""
    bounds = dict(one.split(": ", 1) for one in SIGNATURE.match(lines[0]).group(1).split(", "))
    used = {found for line in clauses(lines) for found in re.findall(r"\b([A-Z])\.", line)}
    return [sources.named(HEADLINE[:3], trait) for name, traits in bounds.items() if name in used for trait in traits.split(" + ")]


def begun_with(sources):
    """The places that the clauses of the public call cite, in order."""
    lines = headline(sources)
    cited = [piece.place for line in clauses(lines) for piece in sources.pieces_of(HEADLINE[:3], line)]
    return [place for place in dict.fromkeys(traits_cited(sources, lines) + cited) if place]


def believed(sources):
    """All places that the clauses lead to, each behind the first that cites it."""
    found, todo = {}, begun_with(sources)[::-1]
    while todo:
        place = todo.pop()
        if place not in found:
            found[place] = None
            todo += sources.cited(place)[::-1]
    return list(found)


class Counts(NamedTuple):
    """How many definitions there are, how many lines with their sentences and the `module` lines above them, and how many
    definitions have no sentence of their own."""

    definitions: int
    lines: int
    silent: int


def counts_of(sources, places):
    items = [sources.item(place) for place in places]
    above = {(place[:3], item.under[:depth + 1]) for place, item in zip(places, items) for depth in range(len(item.under))}
    lines = len(above) + sum(len(item.comment) + sum(1 for line in item.text if line.strip()) for item in items)
    return Counts(len(items), lines, sum(1 for item in items if not item.comment))


def count_text(counts):
    """The sentence that README has."""
    return f"To believe the headline you read {counts.definitions:,} definitions, {counts.lines:,} lines"


def reading_order(sources, places, rooms):
    """The places room by room from the top down, in each crate by crate, file by file as they are first cited, and in a file by line."""
    files = {}
    for place in places:
        files.setdefault(place[:3], []).append(place)
    order = [crate for room in rooms[::-1] for crate in list(room.crates)[::-1]]
    return [sorted(files[file], key=lambda place: sources.item(place).line)
            for file in sorted(files, key=lambda file: order.index(file[0]))]


def anchor(place):
    return ".".join(place)


def piece_text(piece, own):
    text = html.escape(piece.text, quote=False)
    if piece.place == own or not piece.place:
        return f"<b>{text}</b>" if piece.place else text
    return f'<a href="#{anchor(piece.place)}">{text}</a>'


def code_text(lines, own=None):
    """Lines of code, in which each name is a link to its definition; the own name stands out."""
    return "<pre>" + "\n".join("".join(piece_text(piece, own) for piece in line) for line in lines) + "</pre>"


def sentence(words, kind=""):
    return f"<p{kind}>{html.escape(' '.join(words), quote=False)}</p>" if words else ""


def definition_text(sources, place, under):
    """A definition: its sentence, the `module` lines that it stands under where they are others than these, and its own lines."""
    item = sources.item(place)
    lines = sources.pieces(place[:3], item)
    told = lines[len(item.under):] if item.under == under else lines
    return f'<section id="{anchor(place)}">{sentence(item.comment)}{code_text(told, place)}</section>'


def file_text(sources, places):
    """The definitions of a file, under its name and its head."""
    file = places[0][:3]
    path, under = sources.path(*file), [()] + [sources.item(place).under for place in places]
    title = f'<h3><a href="../{path}">{file[0]} / {file[2]}</a></h3>'
    told = [definition_text(sources, place, above) for place, above in zip(places, under)]
    return "\n".join([title, sentence(sources.file(*file).head, ' class="head"'), *told])


def room_text(sources, room, files):
    title = f'<h2 id="{room.name}">{room.name}</h2>\n<p class="head">{html.escape(room.says, quote=False)}</p>'
    return "\n".join([title] + [file_text(sources, places) for places in files])


def row(cells):
    return "<tr>" + "".join(f'<td class="n">{cell:,}</td>' if isinstance(cell, int) else f"<td>{cell}</td>" for cell in cells) + "</tr>"


def table_text(sources, in_room):
    """How much is read in each room."""
    rows = []
    for room, files in in_room:
        counts = counts_of(sources, [place for places in files for place in places])
        rows.append(row([f'<a href="#{room.name}">{room.name}</a>', counts.definitions, counts.lines]))
    return "<table><tr><th>Room</th><th>Definitions</th><th>Lines</th></tr>" + "".join(rows) + "</table>"


def introduction(sources, places):
    counts = counts_of(sources, places)
    return (f"<h1>{count_text(counts)}</h1>\n<p>The headline is the contract of <code>{HEADLINE.crate}::{HEADLINE.name}</code>. Below it stands "
            "each definition that its clauses cite, and that these cite in turn, room by room from the top down, each with the comment above "
            f"it; {counts.silent:,} have none of their own. What std defines is the toolchain's.</p>")


def headline_text(sources, places):
    """The public call; a trait that no clause speaks of is no link."""
    lines = [sources.pieces_of(HEADLINE[:3], line) for line in headline(sources)]
    return code_text([[piece if piece.place in places else piece._replace(place=None) for piece in line] for line in lines])


def page(top=TOP):
    """The page: the headline, and what it rests on, room by room from the top down."""
    sources, rooms = Sources(top), read_rooms(top)
    places = believed(sources)
    files = reading_order(sources, places, rooms)
    in_room = [(room, [one for one in files if one[0].crate in room.crates]) for room in rooms[::-1]]
    in_room = [(room, files) for room, files in in_room if files]
    parts = [introduction(sources, places), table_text(sources, in_room), headline_text(sources, places), *(room_text(sources, *one) for one in in_room)]
    return TOP_OF_PAGE + "\n".join(parts) + "\n</html>\n"

"""Judges what a compositor wrote of a scene: its frames alone, its frames and commits, or all of its records.

Frames alone have to be those of the scene's play, vsync by vsync. Commits may come later than the play has them, and each frame
has to be the one of the tree after them. All records have to mean what the scene allows (docs/MEANING.md).
"""

from collections import Counter
from itertools import islice, zip_longest
from typing import NamedTuple

from surbeldoi.check.checking import check_meaning
from surbeldoi.check.ordering import Ordered, Refused, check_opening
from surbeldoi.check.vsyncs import Vsyncs, released_by
from surbeldoi.judging.images import difference, pixel, write_pictures
from surbeldoi.judging.layers import described, guesses, layers_near
from surbeldoi.model.outputs import Outputs
from surbeldoi.model.transactions import lasting_hold
from surbeldoi.records.stream import IMAGES, OUTPUTS, place_of, place_text, read

DISPLAYS = ("FRAM", "FRAD")
# What only a stream of all records has.
OF_RUNS = {"REPL", "ARRV", "HIST", "HOLD", "STUK"}
MOST_GUESSES = 3
FRAMES, COMMITS, ALL = "frames alone", "frames and commits", "all records"


class Verdict(NamedTuple):
    """What was judged right: how much a stream tells, what of it was compared, and what was left out."""

    level: str
    counted: Counter
    is_partial: bool
    images: object

    def text(self):
        things = [f"{self.counted[name]} {name if self.counted[name] != 1 else name[:-1]}" for name in self.counted]
        parts = [f"right: {self.level}: " + ", ".join(things)]
        if self.is_partial:
            parts.append("captures and hits were not written, and not judged")
        return "; ".join(parts + self.images.rounding())


class Wrong(Exception):
    """What a compositor wrote is wrong; it says where and why in lines."""


class WrongImage(Wrong):
    """An image that is not the one that is due, with both."""

    def __init__(self, lines, got, due, width, tolerance):
        super().__init__("\n".join(lines))
        self.got, self.due, self.width, self.tolerance = got, due, width, tolerance

    def write_pictures(self, folder):
        return write_pictures(folder, self.got, self.due, self.width, self.tolerance)


class Images:
    """Compares images with those that are due, one after another, and notes how far they were off."""

    def __init__(self, scene, tolerance):
        self.outputs, self.tolerance, self.before, self.off, self.most = Outputs(scene), tolerance, {}, 0, 0

    def compare(self, tree, tag, fields, got):
        """Compares an image with the one that is due of a tree, which these fields have. Raises WrongImage."""
        width, due = self.outputs.size_of(tag, fields)[0], fields["pixels"]
        if len(got) != len(due):
            raise Wrong(f"{where_text(tag, fields)}: {len(got)} bytes of pixels, where {len(due)} are due")
        found = difference(got, due, width, self.tolerance)
        if found.first is not None:
            raise WrongImage(self.lines(tree, tag, fields, got, found), got, due, width, self.tolerance)
        self.off, self.most, self.before[place_of(tag, fields)] = self.off + found.pixels, max(self.most, found.most), due

    def lines(self, tree, tag, fields, got, found):
        """Where an image is wrong, and what is there."""
        width, due = self.outputs.size_of(tag, fields)[0], fields["pixels"]
        x, y, came = found.first % width, found.first // width, pixel(got, found.first)
        yield (f"{where_text(tag, fields)}: {found.pixels} of {len(due) // 4} pixels differ, by up to {found.most}; the first is at {x} {y}: "
               f"{came.hex()} came, where {pixel(due, found.first).hex()} is due")
        near = list(layers_near(self.outputs, tree, tag, fields, x, y))
        layers = [at for at in near if at.is_there]
        yield f"  it is of {described(layers[-1])}" if layers else "  no layer is there: it is the black of the display"
        if layers:
            yield "  from the back, with the pixel after each:"
            yield from (f"    {described(at)} -> {at.after.hex()}" for at in layers)
        before = self.before.get(place_of(tag, fields))
        found_guesses = guesses(near, before and pixel(before, found.first), pixel(due, found.first), came)
        yield from (f"  {guess}" for guess in islice(found_guesses, MOST_GUESSES))

    def rounding(self):
        """How far images were off within the tolerance, in a list, where it was asked for."""
        if not self.tolerance:
            return []
        return [f"pixels within the tolerance of {self.tolerance}: {self.off}, by up to {self.most}"]


def where_text(tag, fields):
    return f"vsync {fields['number']}, {place_text(place_of(tag, fields))}"


def level_of(records):
    tags = {record.tag for record in records}
    return ALL if tags & OF_RUNS else COMMITS if "COMM" in tags else FRAMES


class Told(NamedTuple):
    """An image or a hit that a compositor wrote."""

    tag: str
    fields: dict


def told_in(scene, records):
    """The images and hits in a stream of frames alone."""
    ordered = Ordered(records)
    check_opening(ordered.take("SCEN"), scene)
    told = [Told(record.tag, record.fields) for record in ordered.take_all("VSYN", *OUTPUTS) if record.tag != "VSYN"]
    ordered.end()
    return told


def told_in_raw(data, due):
    """The images in raw pixels, which come in the order in which they are due. Raises Wrong where their bytes are too many or too few."""
    wanted = sum(len(fields["pixels"]) for _, _, fields in due)
    if len(data) != wanted:
        raise Wrong(f"{len(data)} bytes came, where the frames that are due ({len(due)}) have {wanted} in all")
    at, told = 0, []
    for _, tag, fields in due:
        size = len(fields["pixels"])
        told.append(Told(tag, {**fields, "pixels": data[at:at + size]}))
        at += size
    return told


def due_of(played, tags):
    """What is due of a play, of these tags: each with its moment."""
    return [(moment, tag, fields) for moment in played.shown() for tag, fields in moment.outputs if tag in tags]


def name_of(output):
    """An image or a hit by its vsync and its place."""
    return where_text(output.tag, output.fields)


def judge_outputs(images, told, due):
    """Judges images and hits against those that are due, one by one."""
    for output, wanted in zip_longest(told, due):
        if wanted is None:
            raise Wrong(f"{name_of(output)} came, and nothing more is due")
        moment, tag, fields = wanted
        if output is None:
            raise Wrong(f"{where_text(tag, fields)} is missing: the frames end before it")
        if name_of(output) != where_text(tag, fields):
            raise Wrong(f"{name_of(output)} came, where {where_text(tag, fields)} is due")
        if tag in IMAGES:
            images.compare(moment.tree, tag, fields, output.fields["pixels"])
        elif output.fields["layer"] != fields["layer"]:
            raise Wrong(f"{where_text(tag, fields)}: layer {output.fields['layer']} came, where layer {fields['layer']} is in front")


def counted(tags):
    """How much was compared, by what it is."""
    count = Counter(tags)
    names = (("FRAM", "frames"), ("FRAD", "frames"), ("CAPT", "captures"), ("HITS", "hits"))
    total = Counter({"frames": 0})
    for tag, name in names:
        if count[tag]:
            total[name] += count[tag]
    return total


def judge_frames(played, told, images, tags):
    due = due_of(played, tags)
    judge_outputs(images, told, due)
    is_partial = len(due) < len(due_of(played, OUTPUTS))
    return Verdict(FRAMES, counted(tag for _, tag, _ in due), is_partial, images)


class JudgedVsyncs(Vsyncs):
    """The vsyncs of a run whose images are compared with a tolerance, and told pixel by pixel where they are wrong."""

    def __init__(self, traces, arrivals, images):
        super().__init__(traces, arrivals)
        self.images = images

    def check_pixels(self, image, due, width, height):
        fields = {**image.fields, "pixels": due}
        self.images.compare(self.stage.tree, image.tag, fields, image.fields["pixels"])


def vsyncs_in(scene, records):
    """The vsyncs in a stream of frames and commits."""
    ordered, vsyncs = Ordered(records), []
    check_opening(ordered.take("SCEN"), scene)
    while ordered.tag() == "VSYN":
        vsyncs.append(ordered.vsync())
    ordered.end()
    return vsyncs


def check_left(played, vsyncs):
    """Nothing that could be committed is left at the end."""
    for token, left in sorted(vsyncs.pending.of_token.items()):
        if left and lasting_hold(played.arrivals[left[-1] - 1][1], played.is_written, vsyncs.stage.frames, played.values) is None:
            raise Refused("holds", "the end", f"arrival {left[-1]} of token {token} is not committed, and nothing holds it in the end")


def counts_of(vsyncs):
    total = counted(output.tag for vsync in vsyncs for output in vsync.outputs)
    return Counter({"commits": sum(len(vsync.commits) for vsync in vsyncs), **total})


def judge_commits(played, records, images):
    """Judges vsyncs with their commits, by the transactions that the play of the scene has, in the order of their arrival."""
    shown = vsyncs_in(played.scene, records)
    released_by(played.scene, played.arrivals, shown)
    vsyncs = JudgedVsyncs(played, played.arrivals, images)
    for vsync in shown:
        vsyncs.check(vsync)
    check_left(played, vsyncs)
    return Verdict(COMMITS, counts_of(shown), False, images)


def judge_all(scene, records, images):
    """Judges all records of a run, by its own replies and arrivals."""
    shown = Ordered(records).shown(scene)
    check_meaning(scene, shown, None, lambda traces, arrivals: JudgedVsyncs(traces, arrivals, images))
    return Verdict(ALL, Counter({"replies": len(shown.replies), **counts_of(shown.vsyncs)}), False, images)


def tags_to_judge(told):
    """What is judged of frames alone: the images of displays, and captures and hits where a stream has one of them."""
    return tuple(OUTPUTS) if any(output.tag not in DISPLAYS for output in told) else DISPLAYS


def sizes_of(scene):
    return {**{("FRAD", number): display[:2] for number, display in scene.displays.items()},
            **{("CAPT", number): capture[1:] for number, capture in scene.captures.items()}}


def judge_records(played, data, tolerance):
    """The verdict on a stream of records. Raises Wrong."""
    records, _ = read(data, sizes_of(played.scene))
    if not records:
        raise Wrong("nothing came")
    images, level = Images(played.scene, tolerance), level_of(records)
    try:
        if level == ALL:
            return judge_all(played.scene, records, images)
        if level == COMMITS:
            return judge_commits(played, records, images)
        told = told_in(played.scene, records)
    except Refused as refused:
        raise Wrong(str(refused)) from None
    return judge_frames(played, told, images, tags_to_judge(told))


def judge_raw(played, data, tolerance):
    """The verdict on raw pixels of the displays. Raises Wrong."""
    images = Images(played.scene, tolerance)
    return judge_frames(played, told_in_raw(data, due_of(played, DISPLAYS)), images, DISPLAYS)

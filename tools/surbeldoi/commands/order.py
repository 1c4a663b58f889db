"""Writes an order for a scene, so that nobody has to count the steps of its actors."""

from surbeldoi.asking.orders import order_lines, with_order
from surbeldoi.commands import words
from surbeldoi.commands.words import STANDARD_INPUT, WRONG, Command, contents, path, say
from surbeldoi.script.scenes import NoScene, read_scene
from surbeldoi.script.scripts import bytes_of

TOOL = "order.py"
MORE = """\
Before each vsync each actor, by rising number, goes on until it has to wait or has applied a transaction; those that waited go on
again where what they waited for came. An order that the scene has is not looked at. Put the lines before `end`, or write all by

  order.py --whole scene.sf > ordered.sf

status: 0 the order is written; 2 wrong words, or a file cannot be read or written, or the script is no scene."""


def take(parser):
    parser.add_argument("--whole", action="store_true", help="write the whole scene, with the order in the place of its own")
    parser.add_argument("scene", metavar="SCENE", nargs="?", type=path, default=STANDARD_INPUT, help="the scene; standard input if it is not given, or is -")


def order(options):
    """Writes the order; the status."""
    script = contents(options.scene)
    try:
        lines = order_lines(read_scene(script))
    except NoScene as fault:
        words.complain(TOOL, fault)
        return WRONG
    say([bytes_of(with_order(script, lines))] if options.whole else lines)
    return 0


ORDER = Command("writes an `order` for a scene, in which each actor goes on until it waits or has applied, and then a vsync comes", take, order, WRONG, MORE)


def main(given):
    return words.called(TOOL, ORDER, given)

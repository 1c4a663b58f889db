"""The words of a command line: what each command takes, its page, and a line for what was wrong.

Options stand in any order among the other words, also as --name=value; behind `--` no word is an option.
"""

import argparse
import difflib
import os
import sys
from typing import Callable, NamedTuple

from surbeldoi.texts import visible, visible_lines

WRONG, UNWRITTEN, INTERRUPTED = 2, 1, 130
HELP = ("-h", "--help")
# Stands in front of a word behind `--`; no word that a command is called with can have it.
NO_OPTION = "\0"
STANDARD_INPUT = "-"


class WrongWords(Exception):
    """Words that a command does not take: what is wrong, and how to see the rest."""


class Command(NamedTuple):
    """A command: what it does, in a line; what it takes, added to its parser; and what does it, which answers the status. Where nobody
    reads on, it ends with `unwritten`. `more` stands at the end of its page."""

    does: str
    takes: Callable
    run: Callable
    unwritten: int = UNWRITTEN
    more: str = None


class Parser(argparse.ArgumentParser):
    """Takes the words of a command."""

    def __init__(self, name, command):
        super().__init__(prog=name, description=command.does, epilog=command.more, formatter_class=argparse.RawDescriptionHelpFormatter, allow_abbrev=False)
        command.takes(self)

    def error(self, message):
        raise WrongWords(f"{message.replace(NO_OPTION, '')} ({self.prog} --help tells what it takes)")

    def taken(self, words):
        return self.parse_intermixed_args(behind_dashes(words))


def options_end(words):
    """The place of the `--` behind which no word is an option."""
    return words.index("--") if "--" in words else len(words)


def behind_dashes(words):
    """The words without `--`, those behind it marked as no options."""
    end = options_end(words)
    return [*words[:end], *(NO_OPTION + word for word in words[end + 1:])]


def wants_help(words):
    return any(word in HELP for word in words[:options_end(words)])


def path(word):
    """A word that names a file or a folder."""
    return word[1:] if word.startswith(NO_OPTION) else word


def number(least, most):
    """A number of a range, as a type of words."""
    def taken(word):
        if not (word.isascii() and word.isdigit() and least <= int(word) <= most):
            raise argparse.ArgumentTypeError(f"{word} is no number from {least} to {most}")
        return int(word)
    return taken


def contents(name):
    """What is in a file, or on standard input."""
    if name != STANDARD_INPUT:
        with open(name, "rb") as file:
            return file.read()
    if sys.stdin is None:
        raise OSError("standard input is closed")
    return sys.stdin.buffer.read()


def complain(tool, text):
    print(f"{tool}: {visible_lines(str(text))}", file=sys.stderr)


def told_fault(fault):
    """What an error of the system says, with the file that it is of."""
    return f"{fault.strerror}: {visible(os.fsdecode(fault.filename))}" if fault.filename is not None and fault.strerror else str(fault)


def put(piece):
    """Writes a line, or bytes as they are."""
    if isinstance(piece, bytes):
        sys.stdout.buffer.write(piece)
    else:
        print(visible_lines(piece))


def say(pieces):
    """Writes lines, or bytes, to the end: what cannot be written is told here."""
    if sys.stdout is None:
        raise OSError("standard output is closed")
    for piece in pieces:
        put(piece)
    sys.stdout.flush()


def stop_writing():
    """Nobody reads on: what Python still holds back for them goes nowhere."""
    os.dup2(os.open(os.devnull, os.O_WRONLY), sys.stdout.fileno())


def done(tool, command, does):
    """The status of what a command does; what goes wrong on the way is told in a line."""
    try:
        return does()
    except WrongWords as fault:
        complain(tool, fault)
        return WRONG
    except BrokenPipeError:
        stop_writing()
        return command.unwritten
    except OSError as fault:
        complain(tool, told_fault(fault))
        return WRONG
    except KeyboardInterrupt:
        complain(tool, "interrupted")
        return INTERRUPTED


def called(tool, command, words, name=None):
    """Calls a command with words; its status."""
    def does():
        parser = Parser(name or tool, command)
        if wants_help(words):
            say([parser.format_help().rstrip()])
            return 0
        return command.run(parser.taken(words))
    return done(tool, command, does)


def page_of(tool, about, commands):
    """The page of a tool with several commands."""
    width = max(map(len, commands)) + 2
    lines = [f"  {name:{width}}{command.does}" for name, command in commands.items()]
    return "\n".join([f"usage: {tool} COMMAND ..", "", *about.strip().split("\n")[:1], "", *lines, "", f"{tool} COMMAND --help tells what a command takes.",
                      *about.strip().split("\n")[1:]])


def unknown(tool, word, commands):
    """What is wrong with a word in the place of a command."""
    near = difflib.get_close_matches(word, commands, 1)
    guess = f": is {near[0]} meant?" if near else ""
    return WrongWords(f"there is no command {visible(word)}{guess} ({tool} --help tells which there are)" if word
                      else f"which command? ({tool} --help tells which there are)")


def called_of(tool, about, commands, words):
    """Calls one of the commands of a tool: the one that the first word names."""
    name, rest = (words[0], words[1:]) if words else ("", [])
    if name in commands:
        return called(tool, commands[name], rest, f"{tool} {name}")

    def does():
        if not wants_help(words):
            raise unknown(tool, name, commands)
        say([page_of(tool, about, commands)])
        return 0
    return done(tool, next(iter(commands.values())), does)

"""What is wrong with a word that is not of its kind."""

import difflib
import re
import unicodedata

from surbeldoi.script.scenes import RANGES, SIGNED
from surbeldoi.texts import BYTES, escape, is_hidden

MOST_DIGITS, MOST_NAME, MOST_TIMES = 20, 16, 256
# What stands in the place of letters that cannot be seen, by what they are.
BYTE_ORDER_MARK = "\ufeff"


def guess(word, words):
    """The one of some words that is nearly this one, or None."""
    near = difflib.get_close_matches(word.lower(), words, 1)
    return near[0] if near else None


def hidden_rule(word):
    """What of a word cannot be seen, or None."""
    letter = next((letter for letter in word if is_hidden(letter) or not letter.isascii() and letter.isspace()), None)
    if letter is None:
        return None
    if letter == BYTE_ORDER_MARK:
        return "a byte order mark stands here, which is no part of a script: save it without one"
    name = "a byte that is no UTF-8" if ord(letter) in BYTES else unicodedata.name(letter, "a control").lower()
    return f"{escape(letter)} stands in it: {name}; words stand apart by blanks and tabs alone"


def number_rule(kind, word):
    """Why a word is none of the numbers of a kind."""
    low, high = RANGES[kind]
    digits = word[1:] if word.startswith("-") else word
    if not (digits.isascii() and digits.isdigit()):
        return no_number_rule(word)
    if len(digits) > MOST_DIGITS:
        return f"too many digits: {len(digits)}, and a number has at most {MOST_DIGITS}"
    if int(word) > high:
        return f"too large: at most {high}"
    return f"too small: at least {low}" if kind in SIGNED or int(word) < low else "a number has no sign here"


def no_number_rule(word):
    if re.fullmatch(r"[0-9]+[,;]", word):
        return f"{word[-1]} is no part of a number: words stand apart by blanks alone"
    if re.fullmatch(r"-?[0-9]*\.[0-9]+|-?[0-9]+\.", word):
        return "no whole number"
    if re.fullmatch(r"0[xX][0-9a-fA-F]+", word):
        return "numbers are decimal"
    if re.fullmatch(r"\+[0-9]+", word):
        return "a number has no + in front"
    return "no number"


def colour_rule(word):
    if word.startswith("#"):
        return "a colour has no # in front"
    if not re.fullmatch(r"[0-9a-fA-F]*", word):
        return "a letter in it is no hexadecimal digit"
    return f"it has {len(word)} digits, and a colour has 8" + (": the last two are alpha, ff where it is opaque" if len(word) == 6 else "")


def name_rule(word):
    if len(word) > MOST_NAME:
        return f"it has {len(word)} letters, and a name has at most {MOST_NAME}"
    if not (word[0].isascii() and word[0].isalpha()):
        return "a name begins with a letter"
    letter = next(letter for letter in word if not (letter.isascii() and (letter.isalnum() or letter == "_")))
    return f"{letter} is no ASCII letter, digit or _"


def pick_rule(word):
    found = re.fullmatch(r"(v|[0-9]+)\*([0-9]+)", word, re.ASCII)
    return f"{found[2]} times: 1 to {MOST_TIMES}" if found else None


def bad_word_rule(kind, word):
    """Why a word is none of a kind, as far as that is plain; None where it is not."""
    hidden = hidden_rule(word)
    if hidden:
        return hidden
    if kind in RANGES:
        return number_rule(kind, word)
    return {"COLOUR": colour_rule, "NAME": name_rule, "PICK": pick_rule, "PARENT": lambda word: number_rule("COUNT", word)}.get(kind, lambda word: None)(word)

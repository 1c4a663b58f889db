"""Texts as they may be sent to a terminal."""

import unicodedata

# Where Python puts the bytes of a file name or a line that are no UTF-8.
BYTES = range(0xdc80, 0xdd00)


def escape(letter):
    """A letter as the digits of its code."""
    code = ord(letter)
    if code in BYTES:
        return f"\\x{code - 0xdc00:02x}"
    return f"\\x{code:02x}" if code < 0x100 else f"\\u{code:04x}" if code < 0x10000 else f"\\U{code:08x}"


def is_hidden(letter):
    """Whether a terminal obeys a letter or does not show it: a control, a mark of direction, a byte that is no text, or a blank that
    is not the usual one."""
    return letter != " " and unicodedata.category(letter)[0] in "CZ"


def visible(text):
    """A text of one line with what would be obeyed or hidden as escapes."""
    if text.isascii() and text.isprintable():
        return text
    return "".join(escape(letter) if is_hidden(letter) else letter for letter in text)


def visible_lines(text):
    """The same of a text that may have several lines."""
    return text if text.isascii() and text.isprintable() else "\n".join(map(visible, text.split("\n")))

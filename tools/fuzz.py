#!/usr/bin/env python3
"""Plays random scenes and faulty scripts by the program, and judges what it writes: `fuzz.py --help` tells how."""

import sys

from surbeldoi.commands.fuzz import main

if __name__ == "__main__":
    sys.exit(main(sys.argv[1:]))

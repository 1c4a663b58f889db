#!/usr/bin/env python3
"""Tells how the code of the crates reads, in numbers: `measures.py --help` tells how."""

import sys

from surbeldoi.commands.measures import main

if __name__ == "__main__":
    sys.exit(main(sys.argv[1:]))

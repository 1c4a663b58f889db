#!/usr/bin/env python3
"""Judges a compositor on a suite of scenes: `conformance.py --help` tells how."""

import sys

from surbeldoi.commands.conformance import main

if __name__ == "__main__":
    sys.exit(main(sys.argv[1:]))

#!/usr/bin/env python3
"""Writes what one has to read to believe the headline, as one page: `believed.py --help` tells how."""

import sys

from surbeldoi.commands.believed import main

if __name__ == "__main__":
    sys.exit(main(sys.argv[1:]))

#!/usr/bin/env python3
"""What a change of a crate costs: `above.py --help` says more."""

import sys

from surbeldoi.commands.above import main

if __name__ == "__main__":
    sys.exit(main(sys.argv[1:]))

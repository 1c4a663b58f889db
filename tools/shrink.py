#!/usr/bin/env python3
"""Makes a scene small on which a command fails: `shrink.py --help` tells how."""

import sys

from surbeldoi.commands.shrink import main

if __name__ == "__main__":
    sys.exit(main(sys.argv[1:]))

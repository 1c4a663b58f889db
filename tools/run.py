#!/usr/bin/env python3
"""Plays a scene, and writes what comes of it: `run.py --help` tells how."""

import sys

if __name__ == "__main__":
    try:
        from surbeldoi.commands.run import main
        sys.exit(main(sys.argv[1:]))
    except KeyboardInterrupt:
        sys.exit(130)

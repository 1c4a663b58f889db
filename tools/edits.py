#!/usr/bin/env python3
"""Tries wrong bodies, which a crate's contracts have to refuse: `edits.py --help` tells how."""

import sys

if __name__ == "__main__":
    try:
        from surbeldoi.commands.edits import main
        sys.exit(main(sys.argv[1:]))
    except KeyboardInterrupt:
        sys.exit(130)

#!/usr/bin/env python3
"""Reads the records that sf_main writes: `records.py --help` tells how."""

import sys

if __name__ == "__main__":
    try:
        from surbeldoi.commands.records import main
        sys.exit(main(sys.argv[1:]))
    except KeyboardInterrupt:
        sys.exit(130)

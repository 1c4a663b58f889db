#!/usr/bin/env python3
"""Shows all of it in five minutes: `tour.py --help` tells how."""

import sys

if __name__ == "__main__":
    try:
        from surbeldoi.commands.tour import main
        sys.exit(main(sys.argv[1:]))
    except KeyboardInterrupt:
        sys.exit(130)

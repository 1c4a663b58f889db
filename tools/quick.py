#!/usr/bin/env python3
"""A quick test, without any proof: `quick.py --help` tells how."""

import sys

if __name__ == "__main__":
    try:
        from surbeldoi.commands.quick import main
        sys.exit(main(sys.argv[1:]))
    except KeyboardInterrupt:
        sys.exit(130)

#!/usr/bin/env python3
"""Writes an order for a scene: `order.py --help` tells how."""

import sys

if __name__ == "__main__":
    try:
        from surbeldoi.commands.order import main
        sys.exit(main(sys.argv[1:]))
    except KeyboardInterrupt:
        sys.exit(130)

#!/usr/bin/env python3
"""Brings Android's own traces in and out: `android.py --help` tells how."""

import sys

from surbeldoi.commands.android import main

if __name__ == "__main__":
    sys.exit(main(sys.argv[1:]))

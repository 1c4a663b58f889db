#!/usr/bin/env python3
"""Judges what another compositor shows of a scene: `judge.py --help` tells how."""

import sys

from surbeldoi.commands.judge import main

if __name__ == "__main__":
    sys.exit(main(sys.argv[1:]))

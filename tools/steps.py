#!/usr/bin/env python3
"""Tells what the proofs of crates took, in the checker's own steps: `steps.py --help` tells how."""

import sys

from surbeldoi.commands.steps import main

if __name__ == "__main__":
    sys.exit(main(sys.argv[1:]))

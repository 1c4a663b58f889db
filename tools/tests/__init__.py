"""Tests of the tools: `python3 -B -m unittest discover -q -s tools`."""

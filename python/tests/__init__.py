"""Tests of the front door: `python3 -m unittest discover -t python python/tests`, or `pytest python/tests`."""

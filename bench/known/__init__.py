"""Shapes of known measure, and what the program and others find of them; for `bench/measures`."""

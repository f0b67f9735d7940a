"""Loads the scripts of this folder, whose files have no ending, as modules; and the greatest sides, as Python has them."""
import importlib.machinery
import importlib.util
import os
import runpy
import sys

sys.dont_write_bytecode = True

HERE = os.path.dirname(os.path.abspath(__file__))
LIMITS = runpy.run_path(os.path.join(HERE, "..", "python", "secondreading", "limits.py"))
MOST_FLAT, MOST_SOLID = LIMITS["MOST_FLAT"], LIMITS["MOST_SOLID"]


def module(name):
    """The script of this folder with the name."""
    loader = importlib.machinery.SourceFileLoader(name, os.path.join(HERE, name))
    found = importlib.util.module_from_spec(importlib.util.spec_from_loader(name, loader))
    loader.exec_module(found)
    return found

"""A second reading of the definitions of `shape`: a checker of its reports for those who trust no toolchain.

It takes docs/REPORT.md word for word and shares nothing with the program: no code, and no prover. It needs Python and numpy alone.
`first_bad_line` says whether a report holds of a picture; `python3 -m secondreading PICTURE REPORT` does so for files.
Each module is one idea of docs/DEFINITIONS.md or one kind of report.
"""
from importlib import import_module

__all__ = ["NoPicture", "Picture", "first_bad_line", "picture_in", "readings"]

# The module of each of these names, which is loaded when the name is first asked for: who wants `limits` alone needs no numpy.
_MODULES = {"first_bad_line": "kinds", "readings": "kinds", "NoPicture": "files", "picture_in": "files", "Picture": "picture"}


def __getattr__(name):
    if name not in _MODULES:
        raise AttributeError(f"module {__name__!r} has no attribute {name!r}")
    return getattr(import_module(f"{__name__}.{_MODULES[name]}"), name)

"""Where the command `shapes` begins: its words are read before anything that measuring needs is loaded, so help and a wrong word come at once.

Nothing that imports numpy may be imported here at the top.
"""
from __future__ import annotations

from .words import parser, words_of


def main(words: list[str] | None = None) -> int:
    """Runs the command; its status."""
    parser().parse_args(words_of(words))
    from .main import main as run

    return run(words)

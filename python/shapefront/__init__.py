"""The front door of `shape`: images in, tables, drawings and arrays out. Every number comes out of the proved program.

    import shapefront
    report = shapefront.analyse(image < 100, "curve")     # an array of booleans, of two or three dimensions
    report.parts.pieces, report.distances, report.skeleton, report.contours[0].points
    shapefront.check(image < 100, report)                 # true where every line of it holds
    shapefront.read("page.report")                        # a report that was written before
    shapefront.measure(image < 100)                       # the columns of the table of its objects, as arrays
    shapefront.edges, .pieces, .balls, .networks          # the further reports, and the skeleton as a network
"""
from __future__ import annotations

from importlib import import_module
from typing import TYPE_CHECKING, Any

if TYPE_CHECKING:
    from .arrays import RULES, Verdict, analyse, check, table
    from .faults import Fault, Missing
    from .further import BallReport, EdgeReport, PieceReport
    from .library import Columns, Networks, balls, edges, measure, networks, pieces
    from .report import Analysis, Contour, Counts, Patch, contours_of, read

__version__ = "0.1"
__all__ = [
    "RULES", "Analysis", "BallReport", "Columns", "Contour", "Counts", "EdgeReport", "Fault", "Missing", "Networks", "Patch", "PieceReport", "Verdict",
    "analyse", "balls", "check", "contours_of", "edges", "measure", "networks", "pieces", "read", "table",
]  # fmt: skip

# The module of each of these names. It is loaded when its name is first asked for: numpy takes longer to load than `shapes --help` may.
_MODULES = {
    **dict.fromkeys(("RULES", "Verdict", "analyse", "check", "table"), "arrays"),
    **dict.fromkeys(("Fault", "Missing"), "faults"),
    **dict.fromkeys(("BallReport", "EdgeReport", "PieceReport"), "further"),
    **dict.fromkeys(("Columns", "Networks", "balls", "edges", "measure", "networks", "pieces"), "library"),
    **dict.fromkeys(("Analysis", "Contour", "Counts", "Patch", "contours_of", "read"), "report"),
}


def __getattr__(name: str) -> Any:
    if name not in _MODULES:
        raise AttributeError(f"module {__name__!r} has no attribute {name!r}")
    return getattr(import_module(f".{_MODULES[name]}", __name__), name)

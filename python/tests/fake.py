"""A program in the place of `shape`, for tests of what goes on around it: the same report and table for each picture, at a pace of the test's."""
from __future__ import annotations

import os
from pathlib import Path

from .common import STORED

# One object whose table has the columns that the front door places and scales; SHAPE_PACE is how many seconds an analysis takes, it waits
# for the file that SHAPE_GATE names, and each begun analysis leaves its process number in the folder that SHAPE_BEGUN names.
_SCRIPT = """#!/bin/sh
full() {{ echo "shape: write failed" >&2; exit 5; }}
case "$1" in
analyse)
    [ -n "$SHAPE_BEGUN" ] && : > "$SHAPE_BEGUN/$$"
    [ -n "$SHAPE_PACE" ] && sleep "$SHAPE_PACE"
    while [ -n "$SHAPE_GATE" ] && [ ! -e "$SHAPE_GATE" ]; do sleep 0.1; done
    sed "1s/none/$4/" {report} 2> /dev/null || full ;;
check) echo yes ;;
measure) printf 'object,area,left,top,right,bottom,x,y,radius,cx,cy\\n1,95,13,7,22,16,17.500,11.500,1.000,15,10\\n' 2> /dev/null || full ;;
draw) echo '<svg xmlns="http://www.w3.org/2000/svg"/>' 2> /dev/null || full ;;
*) echo "usage: shape" >&2; exit 2 ;;
esac
"""


def put(folder: Path) -> dict[str, str]:
    """Puts the program into a folder; the environment in which it is found."""
    folder.mkdir(parents=True, exist_ok=True)
    path = folder / "shape"
    path.write_text(_SCRIPT.format(report=STORED / "word.report"))
    path.chmod(0o755)
    return {**os.environ, "SHAPE_BIN": str(folder)}


# A program that knows `measure spacing A B C REPORT`, whatever the one behind it knows: of each row the radius is empty, the surface a thousand times A, and the
# volume that of its voxels.
_SPACED = """#!/bin/sh
[ "$1 $2" = "measure spacing" ] || exec {real} "$@"
{real} measure "$6" | awk -F, -v OFS=, -v a="$3" -v v=$(($3 * $4 * $5)) '
    NR == 1 {{ for (k = 1; k <= NF; k++) at[$k] = k; print $0, "volume"; next }}
    {{ $at["radius"] = ""; $at["surface"] = 1000 * a ".000"; print $0, v * $at["voxels"] }}'
"""


def put_spaced(folder: Path, real: Path) -> dict[str, str]:
    """Puts a program into a folder that knows tables by the sides of voxels, and calls the real one for all else; the environment in which it is found."""
    folder.mkdir(parents=True, exist_ok=True)
    path = folder / "shape"
    path.write_text(_SPACED.format(real=real))
    path.chmod(0o755)
    return {"SHAPE_BIN": str(folder)}

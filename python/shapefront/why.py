"""Why a line is the first bad one: what it says, and what a fresh report of the same picture says there.

The truth comes out of the proved program alone. Which of several true lines a report has is in places its maker's choice; then
the fresh line is one that would do, and it is said so.
"""
from __future__ import annotations

from dataclasses import dataclass

# What a line claims, where there is one truth; and lines of which several may be true.
_CHOICES = {
    "seg": "it does not hold these points, or its places do not come next",
    "least": "these places do not show the line before to be the simplest",
    "turn": "these places show no turn of the gap",
    "cut": "these weights do not show that the gap is no straight run",
    "patch": "the plane is not proper, or too many points are told",
    "on": "this voxel is not next to the patch, is not on its plane, or was given before",
    "off": "this is not the next voxel beside the patch, or these weights do not refute it",
    "arc": "it does not hold these corners, or its places do not come next",
    "bend": "these steps are not opposite",
    "fold": "these weights do not show that the gap is no straight run",
    "piece": "it does not hold these points, or its places do not come next",
    "ball": "it is no ball of the object, comes out of order, or its own point is not its own",
}
_ONE_TRUTH = {
    "parts": "true", "contour": "the next border", "at": "the next point of the border",
    "face": "the next face", "del": "the next point of the thinning", "tip": "the next point of the thinning",
    "kept": "true", "end": "true",
    "cycle": "the next cycle", "chain": "the next contour",
}  # fmt: skip

# Lines by whose choice later ones change, and those of a thinning, which no choice before them changes.
_SHIFTING = (b"patch", b"on", b"off", b"piece", b"ball")
_THINNING = (b"del", b"tip", b"kept", b"end")


@dataclass(frozen=True)
class Texts:
    """The lines of the report in question, and of a fresh one; each without its end."""

    report: list[bytes]
    fresh: list[bytes]

    @classmethod
    def of(cls, report: bytes, fresh: bytes) -> Texts:
        lines = fresh.split(b"\n")[:-1]
        if report.startswith(b"shape 1 pbm "):
            lines = [line for line in lines if not line.startswith(b"least ")]
            lines[0] = lines[0].replace(b"shape 2 ", b"shape 1 ", 1)
        return cls(report.split(b"\n"), lines)


def reason(report: bytes, fresh: bytes, number: int) -> str:
    """Why line `number` of the report, from 1 on, is its first bad one."""
    texts, k = Texts.of(report, fresh), number - 1
    line = texts.report[k] if k < len(texts.report) else b""
    if k >= len(texts.report) - 1 and not line:
        if texts.report[-2:-1] == [b"end"]:
            return "something stands behind the last line"
        return f"the report ends before this line; here {_told(_truth(texts, k))}"
    if line.endswith(b"\r"):
        return "its lines end as on Windows (CR LF), not with LF alone; take the file as it was written, or mend it by `dos2unix`"
    if k and texts.report[k - 1] == b"end":
        return "something stands behind `end`"
    if k == len(texts.report) - 1:
        return f"`{_shown(line)}` has no end of line: the report was cut"
    return f"it says `{_shown(line)}`; {_difference(line, _truth(texts, k))}"


def _shown(line: bytes) -> str:
    text = line.decode("ascii", "backslashreplace")
    return text if len(text) <= 100 else text[:97] + "..."


def _kind(line: bytes) -> bytes:
    """The word of a line; a turn and a cut are evidence of one kind, and either may do."""
    word = line.split(b" ", 1)[0]
    return b"cut" if word == b"turn" else word


def _truth(texts: Texts, k: int) -> bytes | None:
    """The fresh line that stands where line k of the report does, and None where the reports made other choices before.

    Lines before k are good. So their kinds tell where they stand, and of a thinning how many of its lines come before.
    """
    before, fresh = texts.report[:k], texts.fresh
    if k < len(fresh) and all(_kind(a) == _kind(b) and (a == b or _kind(a) not in _SHIFTING) for a, b in zip(before, fresh)):
        return fresh[k]
    happened = sum(_kind(line) in _THINNING for line in before)
    told = [line for line in fresh if _kind(line) in _THINNING]
    return told[happened] if _kind(texts.report[k]) in _THINNING and happened < len(told) else None


def _told(truth: bytes | None) -> str:
    return "a fresh report goes on in another way" if truth is None else f"a fresh report says `{_shown(truth)}`"


def _difference(line: bytes, truth: bytes | None) -> str:
    """What is true in place of the line, in words that fit its kind."""
    kind = line.split(b" ", 1)[0].decode("ascii", "replace")
    if truth is None:
        return (
            _CHOICES.get(kind, "it does not come next")
            + "; a fresh report made other choices before it, so no line of it answers to this one"
        )
    if _kind(truth) != _kind(line):
        return f"here comes a line `{_kind(truth).decode()}`: `{_shown(truth)}`"
    if kind == "near":
        return _near(line.split(b" ")[1:], truth.split(b" ")[1:], _shown(truth))
    if kind in _CHOICES:
        return f"{_CHOICES[kind]}; `{_shown(truth)}` would do"
    if kind in ("shape", "edges", "pieces", "balls"):
        return _heading(line, truth)
    return f"{_ONE_TRUTH.get(kind, 'true')} is `{_shown(truth)}`"


def _near(words: list[bytes], true: list[bytes], shown: str) -> str:
    axes = len(true) // 2
    if len(words) != len(true):
        return f"it has not {len(true)} numbers as `{shown}`"
    if words[:axes] != true[:axes]:
        return f"the next object point is ({b', '.join(true[:axes]).decode()})"
    if words[-1] != true[-1]:
        return f"the squared distance is {true[-1].decode()}, not {_shown(words[-1])}"
    return f"the squared distance is right, but ({_shown(b', '.join(words[axes:-1]))}) is no nearest background point, as ({b', '.join(true[axes:-1]).decode()}) is"


def _heading(line: bytes, truth: bytes) -> str:
    if line.split(b" ")[2:-1] != truth.split(b" ")[2:-1]:
        return f"the picture is `{_shown(b' '.join(truth.split(b' ')[2:]))}`: the report is of another one"
    return f"true is `{_shown(truth)}`"

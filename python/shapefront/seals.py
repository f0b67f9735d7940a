"""Records that carry the sum of their own content: one changed byte is told.

There is one spelling of a record, so its bytes are made again from what it says; whoever changes it has to change its sum, too.
"""
from __future__ import annotations

from typing import Any

from .files import parsed, spelled_json, sum_of_bytes

SEAL = "own_sum"


def sealed(value: dict[str, Any]) -> dict[str, Any]:
    """The value with the sum of its own spelling as its last member."""
    return {**value, SEAL: sum_of_bytes(spelled_json(value))}


def spelled_sealed(value: dict[str, Any]) -> tuple[dict[str, Any], bytes]:
    """The sealed value, which has members, and its spelling, for which the value is spelled once."""
    data = spelled_json(value)
    own = sum_of_bytes(data)
    return {**value, SEAL: own}, data.removesuffix(b"\n}\n") + b',\n "%b": "%b"\n}\n' % (SEAL.encode(), own.encode())


def opened(data: bytes) -> dict[str, Any] | None:
    """The sealed value that these bytes spell to the last one, and None where they are no such spelling."""
    value = parsed(data)
    if not isinstance(value, dict):
        return None
    own = {name: member for name, member in value.items() if name != SEAL}
    return value if own and spelled_sealed(own)[1] == data else None


def why_not(data: bytes) -> str:
    """Why these bytes are no sealed value."""
    value = parsed(data)
    if not isinstance(value, dict):
        return "it is no record any more: somebody changed it, or it was cut"
    if SEAL not in value:
        return "it has no sum of its own: an earlier version of `shapes` wrote it, or somebody took the sum out; measure again"
    return "it was changed since `shapes` wrote it: its sum is not that of what it says"

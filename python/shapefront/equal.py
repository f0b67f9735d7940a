"""Values that hold arrays: equal where all that they hold is, which numpy does not say of its arrays in one word."""
from __future__ import annotations

from dataclasses import fields
from typing import Any, cast

import numpy as np


class Alike:
    """What a class of data with arrays is derived from: `==` and `hash` go by what its fields hold."""

    def _held(self) -> list[Any]:
        return [getattr(self, field.name) for field in fields(cast(Any, self))]

    def __eq__(self, other: object) -> bool:
        if not isinstance(other, Alike) or type(other) is not type(self):
            return NotImplemented
        return all(_same(one, two) for one, two in zip(self._held(), other._held()))

    def __hash__(self) -> int:
        return hash(tuple(_key(value) for value in self._held()))


def _same(one: Any, two: Any) -> bool:
    return np.array_equal(one, two) if isinstance(one, np.ndarray) and isinstance(two, np.ndarray) else bool(one == two)


def _key(value: Any) -> Any:
    return (value.shape, value.tobytes()) if isinstance(value, np.ndarray) else value

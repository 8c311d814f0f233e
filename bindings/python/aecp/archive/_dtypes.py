"""The dtypes that a trailer can name, written as numpy writes them."""

from __future__ import annotations

import re
from typing import Any, Optional

from aecp.archive._strict import Wrong
from aecp.options import Options

BOOL = "|b1"
DTYPE = re.compile(r"[<>][iu][248]|\|[iu]1|\|b1")


def dtype_in(value: Any, options: Options) -> Optional[str]:
    """Returns a dtype that can hold the samples of these options, or None. Raises Wrong."""
    if value is None:
        return None
    if type(value) is not str or not DTYPE.fullmatch(value):
        raise Wrong("dtype isn't that of whole numbers")
    least, most = bounds_of(value)
    if options.least < least or options.most > most:
        raise Wrong("dtype is too small for the samples")
    return value


def bounds_of(dtype: str) -> tuple[int, int]:
    """Returns the least and the greatest number of a dtype such as "<i2"."""
    if dtype == BOOL:
        return 0, 1
    bits = 8 * int(dtype[2])
    return (-(1 << bits - 1), (1 << bits - 1) - 1) if dtype[1] == "i" else (0, (1 << bits) - 1)

"""Codes to scan (QR codes, ISO/IEC 18004)."""
from __future__ import annotations

from typing import Union

# more bytes than a square can have, with as little redundancy as there is
MOST_BYTES = 2953


def square_of(data: Union[str, bytes], error: str = "m") -> str:
    """The square as SVG, or nothing if segno is not installed, or where no square has room for so much. A
    page takes it as it is.
    """
    try:
        import segno
        from markupsafe import Markup
    except ImportError:
        return ""
    if len(data) > MOST_BYTES:
        return ""
    return Markup(segno.make(data, error=error, micro=False).svg_inline(border=2, omitsize=True))

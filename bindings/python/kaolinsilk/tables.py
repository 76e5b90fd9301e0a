"""Tables for notebooks."""
from __future__ import annotations

from html import escape
from typing import Any, Iterable, Sequence


def table(names: Sequence[str], records: Iterable[Sequence[Any]]) -> str:
    """A table for a notebook."""

    def row(kind: str, values: Iterable[Any]) -> str:
        cells = ("" if value is None else escape(str(value)) for value in values)
        return "<tr>" + "".join(f"<{kind}>{cell}</{kind}>" for cell in cells) + "</tr>"

    lines = "".join(row("td", record) for record in records)
    return f"<table><thead>{row('th', names)}</thead><tbody>{lines}</tbody></table>"

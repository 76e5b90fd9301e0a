"""Pictures that a notebook shows, as SVG."""
from __future__ import annotations

import os
from base64 import b64encode
from html import escape
from pathlib import Path
from typing import Any, Iterable, List, Tuple, Union

# The colours are those of the playground.
STYLE = """
.kaolinsilk { --paper: #fff; --ink: #1b1f24; --faint: #5b6470; --line: #c9ced6; --bad: #b3261e;
  --read: #5aa9e6; --many: #0b57d0; --write: #ffc247; --work: #fff3bf; --stopped: #f6f7f9;
  --on: #10151b; --verify: #3f9b5a; }
@media (prefers-color-scheme: dark) { .kaolinsilk { --paper: #1d2127; --ink: #e6e9ee;
  --faint: #a3adba; --line: #3c444f; --bad: #ff9a91; --read: #4d9bdb; --many: #b6d4ff;
  --write: #e3a52c; --work: #5c4a00; --stopped: #14171b; --verify: #2f8a4b; } }
.kaolinsilk text { font: 11px system-ui, sans-serif; fill: var(--ink); text-anchor: middle;
  dominant-baseline: central; }
.kaolinsilk .start { text-anchor: start; }
.kaolinsilk .end { text-anchor: end; }
.kaolinsilk .title { font-weight: 600; font-size: 13px; }
.kaolinsilk .faint { fill: var(--faint); }
.kaolinsilk .on { fill: var(--on); font-weight: 600; }
.kaolinsilk .paper, .kaolinsilk .pass0 { fill: var(--paper); }
.kaolinsilk .edges { stroke: var(--line); fill: none; }
.kaolinsilk .box { stroke: var(--paper); stroke-width: 1; }
.kaolinsilk .read, .kaolinsilk .pass1 { fill: var(--read); }
.kaolinsilk .write, .kaolinsilk .pass2 { fill: var(--write); }
.kaolinsilk .many { fill: var(--many); }
.kaolinsilk .work { fill: var(--work); }
.kaolinsilk .stopped { fill: var(--stopped); }
.kaolinsilk .pass3 { fill: var(--verify); }
.kaolinsilk .bad { fill: none; stroke: var(--bad); stroke-width: 2; }
.kaolinsilk circle { stroke: var(--faint); }
.kaolinsilk .worker { stroke: var(--paper); stroke-width: 1.5; }
.kaolinsilk text.worker { fill: #fff; font-size: 10px; font-weight: 600; stroke: none; }
"""


class Picture:
    """A picture that a notebook shows. `svg` is its text, and `save` writes that to a file."""

    def __init__(self, width: float, height: float, label: str) -> None:
        self.width, self.height, self.label = width, height, label
        self._parts: List[str] = []

    def text(self, x: float, y: float, said: Any, style: str = "") -> None:
        style = f' class="{style}"' if style else ""
        self._parts.append(f'<text x="{x:g}" y="{y:g}"{style}>{escape(str(said))}</text>')

    def box(self, x: float, y: float, width: float, height: float, style: str) -> None:
        size = f'width="{width:g}" height="{height:g}"'
        self._parts.append(f'<rect x="{x:g}" y="{y:g}" {size} class="{style}"/>')

    def path(self, line: str, style: str) -> None:
        self._parts.append(f'<path d="{line}" class="{style}"/>')

    def circle(self, x: float, y: float, radius: float, style: str, fill: str = "") -> None:
        fill = f' style="fill:{fill}"' if fill else ""
        self._parts.append(f'<circle cx="{x:g}" cy="{y:g}" r="{radius:g}" class="{style}"{fill}/>')

    def key(self, x: float, y: float, styles: Iterable[Tuple[str, str]]) -> None:
        """What the colours mean."""
        for style, said in styles:
            self.box(x, y - 5, 10, 10, style)
            self.text(x + 15, y, said, "start faint")
            x += 30 + 6.2 * len(said)

    @property
    def svg(self) -> str:
        size = f'width="{self.width:g}" height="{self.height:g}"'
        view = f'viewBox="0 0 {self.width:g} {self.height:g}" {size}'
        head = f'<svg xmlns="http://www.w3.org/2000/svg" class="kaolinsilk" role="img" {view}'
        ground = '<rect width="100%" height="100%" class="paper"/>'
        label = f'aria-label="{escape(self.label)}" style="max-width:100%;height:auto"'
        return f"{head} {label}>\n<style>{STYLE}</style>\n{ground}\n" + "\n".join(
            [*self._parts, "</svg>", ""]
        )

    def save(self, file: Union[str, "os.PathLike[str]"]) -> None:
        """Writes the picture to a file."""
        Path(file).write_text(self.svg, encoding="utf-8")

    def __repr__(self) -> str:
        return f"<picture: {self.label}>"

    def _repr_svg_(self) -> str:
        return self.svg

    def _repr_html_(self) -> str:
        # Some notebooks, when they are exported, leave nothing of a picture that stands in the page.
        data = b64encode(self.svg.encode()).decode("ascii")
        return f'<img alt="{escape(self.label)}" src="data:image/svg+xml;base64,{data}">'

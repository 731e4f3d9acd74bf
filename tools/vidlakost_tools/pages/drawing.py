"""Pictures as SVG, without a library: texts, lines, and the document round them."""
from __future__ import annotations

import html

INK, SOFT = "#222222", "#777777"
TIP = (
    '<defs><marker id="tip" viewBox="0 0 8 8" refX="7" refY="4" markerWidth="7" markerHeight="7" orient="auto">'
    f'<path d="M0 0L8 4L0 8z" fill="{INK}"/></marker></defs>'
)


def text(x: float, y: float, words: str, size: int = 11, anchor: str = "start", fill: str = INK, more: str = "") -> str:
    """A line of text; `more` has further attributes."""
    place = f'x="{x:g}" y="{y:g}" font-size="{size}" text-anchor="{anchor}" fill="{fill}"'
    return f"<text {place}{more}>{html.escape(words, quote=False)}</text>"


def line(points: list[tuple[float, float]], stroke: str = INK, width: float = 1.3, more: str = "") -> str:
    """A line through some points."""
    path = " ".join(f"{x:g},{y:g}" for x, y in points)
    return f'<polyline points="{path}" fill="none" stroke="{stroke}" stroke-width="{width:g}"{more}/>'


def document(width: float, height: float, made: list[str]) -> str:
    """A picture of some parts on white; `marker-end="url(#tip)"` makes an arrow of a line."""
    size = f'width="{width:g}" height="{height:g}"'
    head = (
        f'<svg xmlns="http://www.w3.org/2000/svg" {size} viewBox="0 0 {width:g} {height:g}" font-family="sans-serif">'
    )
    return "\n".join([head, TIP, f'<rect {size} fill="#ffffff"/>', *made, "</svg>", ""])

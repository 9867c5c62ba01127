"""Pictures and pages, which notebooks show."""
from __future__ import annotations

import html
import os
from dataclasses import dataclass
from pathlib import Path
from typing import Union

File = Union[str, os.PathLike[str]]
PAGE_HEIGHT = 640  # pixels of a page in a notebook


@dataclass(frozen=True, repr=False)
class Figure:
    """A picture as SVG."""

    svg: str

    def __repr__(self) -> str:
        return f"<pramc.Figure of {len(self.svg)} characters>"

    def save(self, file: File) -> None:
        """Writes it to a file."""
        Path(file).write_text(self.svg, encoding="utf-8")

    def _repr_svg_(self) -> str:
        return self.svg

    def _repr_html_(self) -> str:
        """The picture within a page, since pages that are made of notebooks keep nothing of a picture by itself."""
        return f'<div style="overflow-x: auto">{self.svg}</div>'


@dataclass(frozen=True, repr=False)
class Page:
    """A page of HTML that fetches nothing, as a file of its own."""

    html: str

    def __repr__(self) -> str:
        return f"<pramc.Page of {len(self.html)} characters>"

    def save(self, file: File) -> None:
        """Writes it to a file."""
        Path(file).write_text(self.html, encoding="utf-8")

    def _repr_html_(self) -> str:
        """The page in a frame of its own, so that it changes nothing around it."""
        style = f"width: 100%; height: {PAGE_HEIGHT}px; border: 1px solid #c0c0c0; box-sizing: border-box"
        return f'<iframe title="a run, step by step" style="{style}" srcdoc="{html.escape(self.html)}"></iframe>'

"""Reports of tools/conform as a person sees them, in headless Chromium."""

from __future__ import annotations

import pathlib
import typing

import browser
import shared

MARKS = "[...document.querySelectorAll('tr td:first-child')].map((it) => it.textContent[0]).join('')"
PICTURES = "document.querySelectorAll('svg[role=img]').length"


class SeenPages(shared.InFolder):
    """A test that looks at pages."""

    def setUp(self) -> None:
        super().setUp()
        if not browser.path():
            self.skipTest("no browser is there")

    def seen(self, lines: typing.Iterable[str]) -> tuple[str, int]:
        """The marks of the steps, and how many pictures there are. No part is wider than the window, wide or narrow."""
        page: pathlib.Path = self.file("report.html", "\n".join(lines))
        with browser.Browser() as window:
            for width in browser.WIDTHS:
                window.open(page.as_uri(), width)
                self.assertEqual(window.wider_than_window(), [])
            return str(window.evaluate(MARKS)), int(window.evaluate(PICTURES))

"""HTML files, each of which needs no other file, and a report as one: its table of steps, pictures, and all of its lines."""

from __future__ import annotations

import html
import typing

from linksim_tools.conform.report import Report

MARKS = {"pass": "\u2713", "fail": "\u2717", "none": "\u2013"}
STYLE = """
* { box-sizing: border-box; }
body { font: 16px/1.45 system-ui, sans-serif; max-width: 62rem; margin: 2rem auto; padding: 0 1rem; color: #1b1f24; }
table { border-collapse: collapse; margin: 1rem 0; max-width: 100%; }
th, td { padding: .3rem .9rem; border-bottom: 1px solid #d0d7de; text-align: right; }
th:first-child, td:first-child { text-align: left; }
tr.fail td { background: #ffebe9; } tr.pass td { background: #eafbea; } tr.none td { color: #59636e; }
code, pre { font: 14px/1.4 ui-monospace, monospace; background: #f6f8fa; padding: .1rem .3rem; }
pre { padding: .8rem; white-space: pre-wrap; }
code, pre, p, li { overflow-wrap: anywhere; }
svg { display: block; max-width: 100%; height: auto; margin: 1rem 0; }
h1 { font-size: 1.5rem; } h2 { margin-top: 2rem; font-size: 1.2rem; }
@media (max-width: 480px) { body { margin: 1rem auto; } th, td { padding: .3rem .35rem; font-size: 14px; } }
"""
# How the lines of a report begin that stand out.
MARKED = ("diagnosis", "exactly where", "first difference", "the smallest case that fails")


def escaped(text: object) -> str:
    return html.escape(str(text))


def paragraph(text: str) -> str:
    return f"<p>{escaped(text.strip())}</p>"


def document(title: str, body: typing.Iterable[str]) -> typing.Iterator[str]:
    """The lines of a file."""
    yield '<!doctype html>\n<html lang="en">\n<head>\n<meta charset="utf-8">'
    yield '<meta name="viewport" content="width=device-width, initial-scale=1">'
    yield f"<title>{escaped(title)}</title>\n<style>{STYLE}</style>\n</head>\n<body>\n<h1>{escaped(title)}</h1>"
    yield from body
    yield "</body>\n</html>"


def of_report(made: Report, text: typing.Iterable[str], pictures: typing.Iterable[str] = ()) -> typing.Iterator[str]:
    """What the file of a report has below its title, of these lines of text."""
    yield "<table><tr><th>Step</th><th>pass</th><th>fail</th><th>not answered</th></tr>"
    for step in made.steps.values():
        cells = "".join(f"<td>{it}</td>" for it in (step.passing, len(step.failing), step.not_answered))
        yield f'<tr class="{step.kind}"><td>{MARKS[step.kind]} {escaped(step.name)}</td>{cells}</tr>'
    yield "</table>"
    yield from pictures
    yield "<pre>"
    for line in text:
        yield f"<strong>{escaped(line)}</strong>" if line.strip().startswith(MARKED) else escaped(line)
    yield "</pre>"

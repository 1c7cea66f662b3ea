"""A picture of matplotlib as a small SVG file: text stays text, lines of one style are one path, and the file has few lines.

Colours are attributes, so that a sheet of style can give others to readers who want it dark."""

from __future__ import annotations

import html
import re
import typing
import xml.etree.ElementTree as tree

SVG, LINK = "http://www.w3.org/2000/svg", "http://www.w3.org/1999/xlink"

# A line of the file has so many characters, and the rest of its last element.
LONG = 800

# What a reader sees who wants it dark, by what all others see. Marks keep their colours, but for the darkest.
DARK = {"#ffffff": "#0d1117", "#000000": "#e6edf3", "#555555": "#a3adb8", "#e6e6e6": "#30363d", "#0072b2": "#4aa8e0"}


def tag(name: str) -> str:
    """The name of an element as the parser has it."""
    return f"{{{SVG}}}{name}"


def sheet() -> str:
    """The style of a dark picture."""
    rules = "".join(f'[{kind}="{one}"]{{{kind}:{dark}}}' for one, dark in DARK.items() for kind in ("fill", "stroke"))
    return f"@media (prefers-color-scheme:dark){{text{{fill:{DARK['#000000']}}}{rules}}}"


def short(text: str) -> str:
    """Numbers with two places, and no white space that is not needed."""
    rounded = re.sub(r"-?\d+\.\d+", lambda found: f"{float(found[0]):.2f}".rstrip("0").rstrip("."), text)
    return re.sub(r"\s+", " ", rounded).strip()


def plain(element: tree.Element) -> None:
    """An element with its style as attributes, and its numbers short."""
    for item in filter(None, element.attrib.pop("style", "").split(";")):
        name, _, value = (part.strip() for part in item.partition(":"))
        if name == "font":
            size = re.search(r"[\d.]+(?=px)", value)
            element.set("font-size", size[0] if size else "9")
        else:
            element.set(name, value.lower() if value.startswith("#") else value)
    for name in ("d", "x", "y", "transform", "width", "height"):
        if name in element.attrib:
            element.set(name, short(element.attrib[name]))
    if element.get("transform", "").startswith("rotate(-0 "):
        del element.attrib["transform"]


def flat(element: tree.Element) -> typing.Iterator[tree.Element]:
    """What an element holds, without groups that only name what they hold."""
    for child in element:
        if child.tag in (tag("g"), tag("defs")):
            child.attrib.pop("id", None)
            child[:] = list(flat(child))
            if child.tag == tag("g") and not child.attrib:
                yield from child
                continue
        plain(child)
        yield child


def joined(elements: typing.Iterable[tree.Element]) -> list[tree.Element]:
    """The elements, of which all lines of one style are one path, unless an area comes between that would cover the later one."""
    found: list[tree.Element] = []
    paths: dict[tuple[tuple[str, str], ...], tree.Element] = {}
    for element in elements:
        style = tuple(sorted((name, value) for name, value in element.attrib.items() if name != "d"))
        if element.get("fill") == "#ffffff":
            paths.clear()
        if element.tag == tag("path") and element.get("fill") == "none":
            first = paths.setdefault(style, element)
            if first is not element:
                first.set("d", f"{first.get('d')} {element.get('d')}")
                continue
        found.append(element)
    return found


def compact(drawn: str, title: str, description: str) -> str:
    """The text of the picture that matplotlib drew. It has a title and a description, to be read aloud."""
    tree.register_namespace("", SVG)
    tree.register_namespace("xlink", LINK)
    whole = tree.fromstring(drawn)
    numbers = {name: short(whole.attrib[name]) for name in ("width", "height", "viewBox")}
    head = "".join(f' {name}="{value}"' for name, value in numbers.items())
    text = f'<svg xmlns="{SVG}" xmlns:xlink="{LINK}"{head} role="img" font-family="DejaVu Sans, sans-serif">\n'
    text += f"<title>{html.escape(title)}</title>\n<desc>{html.escape(description)}</desc>\n<style>{sheet()}</style>\n"
    line = ""
    for element in joined(flat(whole)):
        line += re.sub(r' xmlns(:\w+)?="[^"]*"|(?<=>)\s+(?=<)', "", tree.tostring(element, encoding="unicode")).strip()
        if len(line) > LONG:
            text, line = f"{text}{line}\n", ""
    return f"{text}{line}</svg>\n"

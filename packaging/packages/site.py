"""The documentation as a site: all pages, man pages and calls, by mkdocs with its material theme, without the network."""

from __future__ import annotations

import json
import pathlib
import re
import shutil
import subprocess
import typing

import nr_version
from packages import calls, manual as formats, pages as manuals, staging

ROOT = staging.ROOT
THEME = pathlib.Path(__file__).resolve().parent / "theme"
TOPS = ["README.md", "CONTRIBUTING.md", "SECURITY.md", "CHANGELOG.md"]
NEEDED = {"mkdocs": "mkdocs", "man": "man-db", "col": "bsdextrautils"}
ITEM = re.compile(r"\[([^\]]+)\]\(([^)#]+\.md)\)")
# What weighs less in a search than a page that users read; crates come last of all.
WEIGHTS = {"calls/": 0.9, "man/": 0.7, "CHANGELOG": 0.4, "CONTRIBUTING": 0.4, "docs/decisions": 0.4, "docs/README": 0.4}
Nav = typing.List[typing.Dict[str, typing.Any]]


def missing() -> list[str]:
    """Debian's packages that a site needs and that are not here."""
    theme = [] if pathlib.Path("/usr/share/mkdocs/themes/material").is_dir() else ["mkdocs-material"]
    return [package for command, package in NEEDED.items() if not shutil.which(command)] + theme


def title_of(path: pathlib.Path) -> str:
    return next(line[2:] for line in path.read_text().splitlines() if line.startswith("# ")).replace("`", "")


def groups(pages: pathlib.Path) -> Nav:
    """The groups of docs/README.md, each with its pages in their order there."""
    found: Nav = [{"linksim": "README.md"}, {"All pages": "docs/README.md"}]
    for part in re.split(r"(?m)^## ", (pages / "docs" / "README.md").read_text())[1:]:
        name, _, text = part.partition("\n")
        paths = [pathlib.PurePosixPath("docs", target) for _, target in ITEM.findall(text)]
        plain = [path.as_posix().replace("docs/../", "") for path in paths]
        found.append({name: [{title_of(pages / path): path} for path in plain]})
    return found


def manual(source: pathlib.Path) -> str:
    """A man page as it is read in a terminal of 78 columns, which a page has room for."""
    shown = subprocess.run(
        ["man", "--nj", "--nh", "-l", str(source)], stdout=subprocess.PIPE, stderr=subprocess.PIPE, check=True,
        env={"PATH": "/usr/bin:/bin", "MANWIDTH": "78", "MANPAGER": "cat", "LC_ALL": "C.UTF-8"},
    )
    plain = subprocess.run(["col", "-bx"], input=shown.stdout, stdout=subprocess.PIPE, check=True, env={"LC_ALL": "C.UTF-8"})
    name = source.name.rpartition(".")
    return f"# {name[0]}({name[2]})\n\n```text\n{plain.stdout.decode().strip()}\n```\n"


def stage(pages: pathlib.Path) -> Nav:
    """Writes all pages below a folder, laid out as the repository is, and returns the menu."""
    for name in [*TOPS, "docs"]:
        staging.copy(name, pages / name)
    readmes = sorted(ROOT.glob("crates/*/README.md"))
    for path in readmes:
        staging.copy(path.relative_to(ROOT).as_posix(), pages / path.relative_to(ROOT))
    menu = groups(pages)
    (pages / "calls").mkdir()
    (pages / "calls" / "c.md").write_text(calls.of_c((ROOT / "c" / "nr.h").read_text()))
    (pages / "calls" / "python.md").write_text(calls.of_python(ROOT / "c" / "nr"))
    (pages / "calls" / "rust.md").write_text(calls.of_rust(ROOT / "c" / "rust" / "src"))
    names = [("nr.h", "calls/c.md"), ("Python", "calls/python.md"), ("Rust", "calls/rust.md")]
    menu.append({"Calls": [{title: path} for title, path in names]})
    (pages / "man").mkdir()
    manuals.write(pages / "man", manuals.PROGRAM, nr_version.declared())
    of_formats = formats.page((ROOT / "docs" / "formats.md").read_text(), nr_version.declared())
    (pages / "man" / "linksim-formats.5").write_text(of_formats)
    sources = sorted((pages / "man").iterdir())
    for source in sources:
        (pages / "man" / f"{source.name}.md").write_text(manual(source))
        source.unlink()
    menu.append({"Man pages": [{source.name: f"man/{source.name}.md"} for source in sources]})
    menu.append({"Crates": [{path.parent.name: path.relative_to(ROOT).as_posix()} for path in readmes]})
    return menu


def settings(pages: pathlib.Path, out: pathlib.Path, menu: Nav) -> dict[str, typing.Any]:
    """What mkdocs reads. Nothing is fetched: no font, no script from elsewhere."""
    return {
        "site_name": f"linksim {nr_version.declared()}",
        "site_description": "The data coding chain of 5G NR's shared channels, proved",
        "docs_dir": str(pages),
        "site_dir": str(out),
        "use_directory_urls": False,
        "theme": {
            "name": "material", "font": False, "features": ["navigation.sections", "toc.integrate"], "custom_dir": str(THEME),
        },
        "plugins": ["search"],
        "extra_css": ["assets/wide.css"],
        "markdown_extensions": ["tables", "fenced_code", "toc", {"codehilite": {"css_class": "highlight", "guess_lang": False}}],
        "nav": menu,
    }


def index(out: pathlib.Path) -> None:
    """Writes the index of the search as a script, in place of the theme's, which no page that is opened as a file can fetch. A
    page with sections is there by these."""
    found = json.loads((out / "search" / "search_index.json").read_text())["docs"]
    parted = {entry["location"].partition("#")[0] for entry in found if "#" in entry["location"]}
    entries = [
        {"place": it["location"], "name": it["title"], "text": it["text"], "last": int(it["location"].startswith("crates/")),
         "weight": next((weight for start, weight in WEIGHTS.items() if it["location"].startswith(start)), 1)}
        for it in found if it["location"] not in parted
    ]
    (out / "search" / "index.js").write_text(f"window.searchIndex = {json.dumps(entries)};\n")
    (out / "search" / "search_index.json").unlink()
    for name in ("workers", "lunr"):
        shutil.rmtree(out / "assets" / "javascripts" / name, ignore_errors=True)


def build(folder: pathlib.Path, out: pathlib.Path, when: int) -> None:
    """Makes the site below `out`. A dead link ends it."""
    lacking = missing()
    if lacking:
        raise staging.Failed("a site needs Debian's " + " ".join(lacking))
    pages = folder / "pages"
    pages.mkdir(parents=True)
    config = folder / "mkdocs.yml"
    # JSON is YAML.
    config.write_text(json.dumps(settings(pages, out, stage(pages))))
    ended = subprocess.run(
        ["mkdocs", "build", "--strict", "--quiet", "--config-file", str(config)], stdout=subprocess.PIPE,
        stderr=subprocess.STDOUT, text=True, env={"PATH": "/usr/bin:/bin", "SOURCE_DATE_EPOCH": str(when), "LC_ALL": "C.UTF-8"},
        check=False,
    )
    if ended.returncode:
        raise staging.Failed("mkdocs: " + ended.stdout.strip())
    index(out)

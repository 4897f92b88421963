#!/usr/bin/env python3
"""Writes the pages for users below a prefix, in share/doc/auditor, so that each of their links leads to a file there.

    demo/package_pages.py PREFIX

A link to what the package has leads to its place in it; of any other the words stay and the link goes. demo and front are to be there.
"""
import os
import re
import sys
from pathlib import Path

TOP = Path(__file__).resolve().parent.parent
# They are for those who change the program, who have the source.
DEVELOPERS = {"ADDING.md", "ARCHITECTURE.md", "DECISIONS.md", "GATE.md"}
LINK = re.compile(r"\[([^\]\[]+)\]\(([^)#\s]*)(#[^)\s]*)?\)")


def placed(path):
    """Where the package has a file of the source, below the prefix, or None."""
    match path.relative_to(TOP).parts:
        case [("README.md" | "CHANGELOG.md") as page]:
            return Path("share/doc/auditor", page)
        case ["docs", page] if page not in DEVELOPERS and page.endswith((".md", ".png")):
            return Path("share/doc/auditor", page)
        case ["demo" | "front", *_] as parts:
            return Path("share/auditor", *parts)
    return None


def linked(page, prefix):
    """The text of a page, with the links that it has in the package."""
    def link(match):
        words, target, part = match[1], match[2], match[3] or ""
        if "://" in target or not target:
            return match[0]
        path = Path(os.path.normpath(page.parent / target))
        place = placed(path) if path.is_relative_to(TOP) else None
        if place is None or not (is_page(path) or (prefix / place).exists()):
            return words
        return f"[{words}]({os.path.relpath(place, placed(page).parent)}{part})"
    # An image that isn't there is left out with its mark.
    return re.sub(r"!(?=\w)", "", LINK.sub(link, page.read_text()))


def is_page(path):
    return path in PAGES or path in PICTURES


PICTURES = sorted(TOP.glob("docs/*.png"))
PAGES = [TOP / "README.md", TOP / "CHANGELOG.md", *(page for page in sorted(TOP.glob("docs/*.md")) if page.name not in DEVELOPERS)]


def main(prefix):
    for page in PAGES:
        place = prefix / placed(page)
        place.parent.mkdir(parents=True, exist_ok=True)
        place.write_text(linked(page, prefix))
    for picture in PICTURES:
        (prefix / placed(picture)).write_bytes(picture.read_bytes())


if __name__ == "__main__":
    if len(sys.argv) != 2:
        sys.exit("usage: package_pages.py PREFIX")
    main(Path(sys.argv[1]))

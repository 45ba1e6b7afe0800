#!/usr/bin/env python3
"""Makes the pictures in docs/pictures anew: a loop of the gallery, light, another one, dark, and a scheduling problem; or those that are named.

usage: clients/report/tests/pictures.py [NAME ..]

Chromium has to be installed, and pngquant, which makes the files small. The program is the one that report.py takes."""
from __future__ import annotations

import os
import subprocess
import sys
import tempfile

HERE = os.path.dirname(os.path.realpath(__file__))
ROOT = os.path.dirname(os.path.dirname(os.path.dirname(HERE)))
GALLERY, PROBLEMS = f"{ROOT}/examples/gallery", f"{ROOT}/examples/problems"
sys.path[:0] = [HERE, os.path.dirname(HERE)]
from browser import Browser, found  # noqa: E402
from document import text_of  # noqa: E402
from report import document_of_problems, page_of, printed, program_beside  # noqa: E402

# The picture, the machine or the text of problems, what is open, light or dark, and a selector of the last element that is on it.
PICTURES = [
    ("report", "small_dsp.toml", "loop-histogram", "light", "[data-chart=iteration]"),
    ("report_dark", "clustered.toml", "loop-recurrence2", "dark", "section"),
    ("report_problems", "clustered.txt", "problem-complex_multiply", "light", "[data-chart=iteration]"),
]


def all_loops(room: str) -> str:
    """The loops of the gallery in one file, so that the list has some."""
    path = f"{room}/gallery.txt"
    with open(path, "w", encoding="utf-8") as to:
        for name in sorted(os.listdir(f"{GALLERY}/loops")):
            if name.endswith(".txt"):
                with open(f"{GALLERY}/loops/{name}", encoding="utf-8") as it:
                    to.write(it.read())
    return path


def page_for(what: str, room: str) -> str:
    """The page for a machine of the gallery with all loops, or for a text of problems."""
    if what.endswith(".txt"):
        return page_of(text_of(document_of_problems(program_beside(), f"{PROBLEMS}/{what}", [])))
    return printed(program_beside(), ["explain", f"{GALLERY}/machines/{what}", all_loops(room), "--format", "html"])


def main(wanted: list[str]) -> None:
    """Makes each picture, or those that are wanted."""
    browser = Browser(found() or sys.exit("pictures: there is no Chromium here"))
    try:
        with tempfile.TemporaryDirectory() as room:
            for name, what, opened, scheme, last in PICTURES:
                if wanted and name not in wanted:
                    continue
                with open(f"{room}/page.html", "w", encoding="utf-8") as it:
                    it.write(page_for(what, room))
                browser.media(scheme)
                browser.size(1400, 2000)
                browser.open(f"{room}/page.html", f"#{opened}")
                browser.size(1400, browser.value(f"Math.ceil(document.querySelector('{last}').getBoundingClientRect().bottom) + 10"))
                browser.picture(f"{room}/{name}.png")
                quantised = ["pngquant", "--force", "--speed", "1", "--output", f"{ROOT}/docs/pictures/{name}.png", "128", f"{room}/{name}.png"]
                subprocess.run(quantised, check=True)
    finally:
        browser.close()


if __name__ == "__main__":
    main(sys.argv[1:])

"""Reads the pages of the repository: their blocks, sentences, headings and links. What is a sentence may be changed here.

A page is Markdown. Its prose is what stands outside fences, tables and headings; an item of a list is a block of its own.
"""
import glob
import os
import re

ROOT = os.path.join(os.path.dirname(os.path.abspath(__file__)), "..")
MADE = {"docs/EDITS.md", "docs/CALLS.md"}                                    # written by a script, and read row by row
FENCE = re.compile(r"^```[^\n]*\n.*?^```[^\n]*$", re.S | re.M)
LINK = re.compile(r"!?\[[^\]]*\]\(([^)\s]+)\)")
ITEM = re.compile(r"^\s*(?:[-*]|\d+\.)\s+")
END = re.compile(r"(?<=[.!?])[)\"*`]*\s+(?=[A-Z`*(\"\[]|\d)")
SHORT = ("e.g.", "i.e.", "vs.", "ff.", "approx.", "etc.")


def pages():
    """The pages that people write, by their paths below the repository."""
    os.chdir(ROOT)
    return ["README.md", *sorted(glob.glob("docs/*.md")), "pictures/README.md", "python/README.md"]


def text_of(page):
    with open(os.path.join(ROOT, page), encoding="utf-8") as file:
        return file.read()


def blocks(text):
    """The paragraphs and items of a page, each as one line; no fence, table or heading."""
    block = []
    for line in [*FENCE.sub("\n", text).splitlines(), ""]:
        ends = not line.strip() or line.startswith(("|", "#", "![", "<!--"))
        if (ends or ITEM.match(line)) and block:
            yield " ".join(block)
            block = []
        if not ends:
            block.append(ITEM.sub("", line).strip())


def sentences(text):
    """The sentences of a page's prose."""
    for block in blocks(text):
        begun = ""
        for part in END.split(block):
            begun = f"{begun} {part}".strip()
            if not begun.endswith("..") and begun.split()[-1] not in SHORT:
                yield begun
                begun = ""
        if begun:
            yield begun


def words(text):
    """The words of a text: whatever stands between blanks and has a letter or a digit. A link is its words, a name in quotes is one word."""
    text = re.sub(r"\]\([^)]*\)", "]", re.sub(r"`[^`]*`", "name", text))
    return [word for word in text.split() if re.search(r"\w", word)]


def headings(text):
    """The anchors of a page's headings, as GitHub and pandoc's gfm make them."""
    found = {}
    for title in re.findall(r"^#{1,6}\s+(.*)$", FENCE.sub("", text), re.M):
        anchor = re.sub(r"[^\w\- ]", "", title.strip().lower()).replace(" ", "-")
        count = found[anchor] = found.get(anchor, -1) + 1
        yield f"{anchor}-{count}" if count else anchor

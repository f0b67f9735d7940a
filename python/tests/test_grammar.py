"""Reads the grammar of docs/REPORT.md and compares it with reports of all kinds.

The grammar is regular, so each of its rules becomes a regular expression. What of ABNF it uses is read here, and no more.
"""
import re
import subprocess
import unittest

from .common import ROOT, STORED, needs_shape, programs

TOKEN = re.compile(r'(?P<text>(?:%s)?"[^"]*")|%x(?P<low>[0-9A-F]+)(?:-(?P<high>[0-9A-F]+))?|(?P<times>\d*\*\d*|\d+)|(?P<name>[A-Za-z]\w*)|(?P<mark>[()\[\]/])')
PICTURES = ("blank", "one", "ring", "cross", "word", "small0", "small3", "steps")


def rules():
    """The rules of the grammar: the tokens of each, by its name."""
    page = (ROOT / "docs" / "REPORT.md").read_text()
    found = {}
    for line in re.search(r"```abnf\n(.*?)```", page, re.S)[1].splitlines():
        if line.strip():
            name, _, rest = line.partition(" = ")
            found[name.strip()] = list(TOKEN.finditer(rest))
    return found


def pattern(name, found):
    """A rule as a regular expression."""
    return f"(?:{''.join(parts(found[name], found))})"


def parts(tokens, found):
    """The parts of a rule; a repetition stands before what it repeats, and here behind it."""
    times = ""
    for token in tokens:
        if token["times"] is not None:
            least, star, most = token["times"].partition("*")
            times = f"{{{least or 0},{most}}}" if star else f"{{{least}}}"
            continue
        if token["mark"]:
            opened, closed = token["mark"] in "([", token["mark"] in ")]"
            if opened:
                waiting.append("?" if token["mark"] == "[" else times)
            yield "(?:" if opened else ")" + waiting.pop() if closed else "|"
        else:
            yield one(token, found) + times
        times = ""


waiting: list[str] = []


def one(token, found):
    """A string, a range of characters or another rule."""
    if token["text"]:
        return f"(?:{re.escape(token['text'].removeprefix('%s')[1:-1])})"
    if token["low"]:
        low, high = (re.escape(chr(int(end, 16))) for end in (token["low"], token["high"] or token["low"]))
        return f"[{low}-{high}]"
    return pattern(token["name"], found)


@needs_shape
class Grammar(unittest.TestCase):
    def reports(self):
        """The kind and the text of reports of all kinds."""
        for name in PICTURES:
            flat = ("pbm", str(STORED / f"{name}.pbm"))
            yield from ((kind, self.made(kind, *flat)) for kind in ("edges", "pieces", "balls"))
            yield from (("analysis", self.made("analyse", *flat, rule)) for rule in ("none", "curve", "few"))
        solid = ("raw", "16", "16", "16", str(STORED / "pores.16x16x16.raw"))
        yield "analysis", self.made("analyse", *solid, "curve")
        yield "balls", self.made("balls", *solid)
        yield "analysis", (STORED / "granite.report").read_text()

    def made(self, *words):
        return subprocess.run([str(programs.find()), *words], stdout=subprocess.PIPE, text=True, check=True).stdout

    def test_reports(self):
        found = rules()
        kinds = {kind: re.compile(pattern(kind, found)) for kind in ("analysis", "edges", "balls", "pieces")}
        for kind, text in self.reports():
            with self.subTest(text[:60]):
                self.assertTrue(kinds[kind].fullmatch(text))
                if len(text) < 5000:
                    for changed in misspelt(text):
                        self.assertFalse(kinds[kind].fullmatch(changed), changed)

    def test_examples(self):
        found, page = rules(), (ROOT / "docs" / "REPORT.md").read_text()
        whole = [text for text in re.findall(r"^```\n((?:shape|balls|pieces) .*?)^```$", page, re.S | re.M) if "..." not in text]
        self.assertEqual(len(whole), 5)
        for text in whole:
            kind = text.split()[0].replace("shape", "analysis")
            with self.subTest(text):
                self.assertRegex(text, rf"\A{pattern(kind, found)}\Z")

    def test_whole(self):
        page = (ROOT / "docs" / "REPORT.md").read_text()
        run = subprocess.run([str(programs.find()), "analyse", "pbm", "/dev/stdin", "curve"], input="P1 2 1 1 1", stdout=subprocess.PIPE, text=True, check=True)
        self.assertIn(f"```\n{run.stdout}```", page)


def misspelt(text):
    """The text with one line spelled wrong, for each of its lines and several ways; cut, and with more behind its end."""
    lines = text.splitlines(keepends=True)
    for k, line in enumerate(lines):
        for other in (line.upper(), line.replace("\n", " \n"), line.replace("\n", "\r\n"), " " + line, re.sub(r" (-?)(\d)", r" \g<1>0\2", line, count=1), line + "\n"):
            if other != line:
                yield "".join([*lines[:k], other, *lines[k + 1 :]])
    yield text[:-1]
    yield text + "end\n"


if __name__ == "__main__":
    unittest.main()

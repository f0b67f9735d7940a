"""Looks at the documents as wholes: their links, their sentences, their numbers, the tables that scripts make, and the manual pages."""
import shutil
import subprocess
import sys
import tempfile
import unittest

from .common import ROOT, slow


class Documents(unittest.TestCase):
    def passes(self, *words):
        run = subprocess.run([sys.executable, *words], cwd=ROOT, stdout=subprocess.PIPE, stderr=subprocess.STDOUT, text=True)
        self.assertEqual(run.returncode, 0, run.stdout)

    def test_links(self):
        self.passes("bench/links")

    def test_sentences(self):
        self.passes("bench/words")

    def test_numbers(self):
        self.passes("bench/same")

    def test_names(self):
        self.passes("bench/names")

    def test_calls(self):
        self.passes("bench/calls")

    @slow
    @unittest.skipUnless(shutil.which("pandoc"), "pandoc is not installed")
    def test_site(self):
        with tempfile.TemporaryDirectory() as folder:
            self.passes("bench/site", f"{folder}/site")

    def test_readme_is_short(self):
        self.assertLessEqual(len((ROOT / "README.md").read_text().split()), 1100)

    @unittest.skipUnless(shutil.which("mandoc"), "mandoc is not installed")
    def test_manuals(self):
        """Clean but for references to manuals that this machine may not have."""
        for page in sorted((ROOT / "docs" / "man").iterdir()):
            run = subprocess.run(["mandoc", "-T", "lint", str(page)], stdout=subprocess.PIPE, text=True)
            self.assertEqual([line for line in run.stdout.splitlines() if "referenced manual not found" not in line and "mandoc.db" not in line], [])


if __name__ == "__main__":
    unittest.main()

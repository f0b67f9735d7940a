"""What TAB offers behind `shape` and `shapes`, in each shell that is installed; that shapes' own follows its words; and that `install` puts all in place."""
import os
import pty
import select
import shutil
import signal
import subprocess
import sys
import time
import unittest
from pathlib import Path

from .common import ROOT, InFolder

HERE = ROOT / "python" / "completion"
RULES = {"none", "curve", "few"}
UNITS = {"nm", "um", "mm", "cm", "m"}

# What is offered behind a line, and whether files are.
OFFERED = (
    ("shape ch", {"check", "checkedges", "checkpieces", "checkballs"}, False),
    ("shape analyse ", {"pbm", "raw"}, False),
    ("shape edges ", {"pbm"}, False),
    ("shape checkballs ", {"pbm", "raw"}, False),
    ("shape analyse pbm ", set(), True),
    ("shape analyse pbm x ", RULES, False),
    ("shape analyse pbm x none ", set(), False),
    ("shape analyse raw 1 1 ", set(), False),
    ("shape analyse raw 1 1 1 ", set(), True),
    ("shape analyse raw 1 1 1 x c", {"curve"}, False),
    ("shape check raw 1 1 1 x ", set(), True),
    ("shape balls raw 1 1 1 x ", set(), False),
    ("shape measure ", {"moments", "thickness", "spacing", "whole"}, True),
    ("shape measure moments ", {"thickness", "spacing"}, True),
    ("shape measure thickness spacing 1 ", set(), False),
    ("shape measure moments thickness spacing 1 2 3 ", set(), True),
    ("shape draw ", {"labels", "contours", "measures"}, True),
    ("shape draw labels ", set(), True),
    ("shape mask ", {"skeleton", "object", "distances", "squares", "thickness"}, False),
    ("shape mask object ", set(), True),
    ("shape help m", {"measure", "mask"}, False),
    ("shape help checkb", {"checkballs"}, False),
    ("shape measure --h", {"--help"}, False),
    ("shapes j", {"join"}, False),
    ("shapes measure --thr", {"--threshold"}, False),
    ("shapes measure --rule ", RULES, False),
    ("shapes measure --pixel-size ", set(), False),
    ("shapes measure x ", set(), True),
    ("shapes volume --voxel-s", {"--voxel-size"}, False),
    ("shapes check --originals ", set(), True),
    ("shapes export ", {"dxf", "ply"}, False),
    ("shapes export dxf ", set(), True),
)

# Where a shell knows more than the first word behind an option, or what stands behind a sign.
FURTHER = (
    ("shapes measure --pixel-size 1 ", UNITS, False),
    ("shapes volume --voxel-size 1 1 1 ", UNITS, False),
    ("shapes volume --sides 1 1 ", set(), False),
    ("shapes measure --pixel-size 1 mm ", set(), True),
    ("shape analyse pbm x none > ", set(), True),
)

# What zsh makes of the beginning of a word.
ENDED = (
    ("shape anal", "shape analyse "),
    ("shape analyse pbm fi", "shape analyse pbm file.pbm "),
    ("shape analyse raw 1 1 1 x cu", "shape analyse raw 1 1 1 x curve "),
    ("shape measure moments spacing 1 1 1 fi", "shape measure moments spacing 1 1 1 file.pbm "),
    ("shapes measure --thre", "shapes measure --threshold "),
    ("shapes volume --voxel-size 1 1 1 u", "shapes volume --voxel-size 1 1 1 um "),
    ("shapes export d", "shapes export dxf "),
)

# Calls a command's function as bash does; `compopt` says that bash itself offers files.
BASH = """
compopt() {{ [[ $2 == filenames ]] || echo file.pbm; }}
source {script}
COMP_WORDS=({words}) COMP_CWORD={last}
_{command}
printf '%s\\n' "${{COMPREPLY[@]}}"
"""


class Completion(InFolder):
    def setUp(self):
        super().setUp()
        Path("file.pbm").touch()

    def run_in(self, *words):
        run = subprocess.run(words, stdout=subprocess.PIPE, stderr=subprocess.STDOUT, text=True, env={**os.environ, "HOME": str(self.folder)})
        return run.stdout

    def compare(self, cases, ask):
        for line, words, has_files in cases:
            with self.subTest(line):
                self.assertEqual(ask(line), words | ({"file.pbm"} if has_files else set()))

    def bash(self, line):
        command, *words = line.split(" ")
        told = " ".join(f"'{word}'" for word in (command, *words))
        script = BASH.format(script=HERE / f"{command}.bash", words=told, last=len(words), command=command)
        return set(self.run_in("bash", "-c", script).split())

    def fish(self, line):
        script = f"source {HERE}/{line.split()[0]}.fish; complete -C '{line}'"
        return {told.split("\t")[0] for told in self.run_in("fish", "--no-config", "-c", script).splitlines()}

    def zsh(self, line, wanted):
        """What stands on the line behind TAB, as far as it came within a minute."""
        shutil.copy(HERE / "shape.zsh", "_shape")
        shutil.copy(HERE / "shapes.zsh", "_shapes")
        process, terminal = pty.fork()
        if process == 0:
            os.environ.update(TERM="dumb", HOME=str(self.folder), ZDOTDIR=str(self.folder), LC_ALL="C")
            os.execvp("zsh", ["zsh", "-f", "-i"])

        def until(mark):
            got, end = b"", time.monotonic() + 60
            while mark not in got and time.monotonic() < end:
                if select.select([terminal], [], [], 0.2)[0]:
                    got += os.read(terminal, 65536)
            return got.decode(errors="replace")

        os.write(terminal, b"fpath=($PWD $fpath); autoload -Uz compinit; compinit -u -D; bindkey -e; bindkey '^I' complete-word; echo be'gun'\n")
        until(b"begun")
        os.write(terminal, line.encode() + b"\t")
        told = until(wanted.encode())
        os.kill(process, signal.SIGKILL)
        os.waitpid(process, 0)
        os.close(terminal)
        return told

    def test_bash(self):
        self.compare((*OFFERED, *FURTHER), self.bash)

    @unittest.skipUnless(shutil.which("fish"), "fish is not installed")
    def test_fish(self):
        self.compare(OFFERED, self.fish)

    @unittest.skipUnless(shutil.which("zsh"), "zsh is not installed")
    def test_zsh(self):
        for line, wanted in ENDED:
            with self.subTest(line):
                self.assertIn(wanted, self.zsh(line, wanted))

    def test_made(self):
        """The completion of `shapes` is that of its words today."""
        self.assertEqual(self.run_in(sys.executable, str(HERE / "make"), "."), "")
        for shell in ("bash", "zsh", "fish"):
            self.assertEqual(Path(f"shapes.{shell}").read_text(), (HERE / f"shapes.{shell}").read_text(), "run python/completion/make")

    def test_install(self):
        """What is installed is where each shell looks, and nothing is left behind an undo."""
        for name in ("docs", "python"):
            Path(name).symlink_to(ROOT / name)
        Path("crates/shape/out").mkdir(parents=True)
        Path("crates/shape/out/shape").write_text("#!/bin/sh\n")
        Path("crates/shape/out/shape").chmod(0o755)
        shutil.copy(ROOT / "install", "install")
        self.assertIn("done: ", self.run_in("./install", "put"))
        for name in ("bash-completion/completions/shape{}", "zsh/site-functions/_shape{}", "fish/vendor_completions.d/shape{}.fish"):
            for end in ("", "s"):
                self.assertTrue(Path("put/share", name.format(end)).is_file(), name)
        self.run_in("./install", "--undo", "put")
        self.assertFalse(Path("put").exists())


if __name__ == "__main__":
    unittest.main()

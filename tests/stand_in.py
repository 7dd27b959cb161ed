"""Copies of the repository's commands beside a stand-in for rt, which sleeps in place of proving; and how a run of a command is judged."""
import os
import shutil
import subprocess
import tempfile
from pathlib import Path

ROOT = Path(__file__).resolve().parent.parent
LIMIT = 120

# Says what rt says, but proves nothing: it takes two seconds, does the work that it is given in the crate's folder, and fails where two run
# at once.
STAND_IN = """#!/bin/sh
[ "$1" != doc ] || { echo %(kit)s/START-HERE.md; exit; }
crate=$(basename "$PWD")
mkdir %(room)s/running || { echo 'fn whole::sum: not proved'; exit 1; }
echo "$crate: $*" >>%(room)s/calls
echo 'fn whole::sum: proved'
echo 'crate whole: modules loaded=0 checked=23'
echo 'logic=proved functions=1 sum=0 native=nat,char,string'
sleep 2
%(work)s
echo "crate $crate: modules loaded=23 checked=12"
echo 'logic=proved functions=12 target=x86_64-unknown-linux-gnu sum=0 native=nat,char,string'
rmdir %(room)s/running
"""


def real_kit():
    """The folder of the toolchain."""
    guide = subprocess.run(["rt", "doc"], stdin=subprocess.DEVNULL, capture_output=True, text=True, check=True).stdout.strip()
    return Path(guide).parent


class Copy:
    """A copy of some of the repository, with no target, and a stand-in for rt beside it, which does this work."""

    def __init__(self, room, parts, work, kit=None):
        self.room, self.root = room, room / "copy"
        for part in parts + ["bin", "docs/TIMES.md", "crates.txt"] + ["crates/%s/src" % crate for crate in ("whole", "hornherder_c", "shelf")]:
            if (ROOT / part).is_dir():
                shutil.copytree(ROOT / part, self.root / part, symlinks=True, ignore=shutil.ignore_patterns("target"))
            else:
                (self.root / part).parent.mkdir(parents=True, exist_ok=True)
                shutil.copy2(ROOT / part, self.root / part)
        (room / "tools").mkdir()
        stand_in = room / "tools/rt"
        stand_in.write_text(STAND_IN % {"kit": kit or real_kit(), "room": room, "work": work})
        stand_in.chmod(0o755)
        self.surroundings = dict(os.environ, PATH="%s:%s" % (room / "tools", os.environ["PATH"]))

    def start(self, command, text=b"", **more):
        """A run of a command of the copy on a text."""
        pipe = subprocess.PIPE
        with tempfile.TemporaryFile() as given:
            given.write(text)
            given.seek(0)
            return subprocess.Popen([self.root / command], stdin=given, stdout=pipe, stderr=pipe, env=self.surroundings, **more)

    def calls(self):
        """In which crate and with what rt was called, call by call."""
        return (self.room / "calls").read_text().splitlines()


def ended(child):
    """What a run printed and said, and how it ended."""
    out, said = child.communicate(timeout=LIMIT)
    return out, said, child.returncode


def wrong(label, result, out, status, *words):
    """None where a run printed this, ended so and said these words; else what it did."""
    good = result[0] == out and result[2] == status and all(word in result[1] for word in words)
    return None if good else "%s: %r, and should print %r, end with %d and say %r" % (label, result, out, status, words)

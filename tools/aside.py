"""How tools/landings proves single crates of old commits: what the check reads of a commit, and a checkout aside in which rt proves a crate of it."""
import fcntl
import functools
import hashlib
import os
import re
import shutil
import signal
import subprocess
import tempfile
import time

from copies import ROOT, text_of

KEPT = f"{ROOT}/build/landings"
JOBS = 1  # a crate is measured alone
OLDER = "Rattle·"  # how a file of an older kit's spelling begins the names of its definitions

FOLDERS = {"specs": "antt", "src": "rt", "proofs": "antt"}  # what is proved and its proofs, with the ending of their files
PROVED_PATHS = ["crates.txt"] + [f":(glob)crates/*/{folder}/**/*.{ending}" for folder, ending in FOLDERS.items()]
PROVED_FILE = re.compile("|".join(f"crates/[^/]+/({folder})/.*\\.{ending}" for folder, ending in FOLDERS.items()))


class Stopped(Exception):
    """Why nothing can be measured, in words."""


def git(*words, given=None, index=None):
    environment = {**os.environ, "GIT_INDEX_FILE": index} if index else None
    done = subprocess.run(["git", *words], cwd=ROOT, env=environment, input=given, capture_output=True)
    if done.returncode != 0:
        raise Stopped(f"git {words[0]}: {done.stderr.decode(errors='replace').strip()}")
    return done.stdout


# ---- what git gives


def mended(commit, mend):
    """The tree of a commit with what another changed of the files that the check reads."""
    with tempfile.TemporaryDirectory() as folder:
        index = f"{folder}/index"
        git("read-tree", commit, index=index)
        # Without lines around it: those that a later landing added are not there yet.
        git("apply", "--cached", "--unidiff-zero", given=git("diff", "-U0", f"{mend}^", mend, "--", *PROVED_PATHS), index=index)
        return git("write-tree", index=index).decode().strip()


class Tree:
    """The files of a commit, mended or as it stands, that the check reads: crates.txt, definitions, code and proofs."""

    lines_of = {}  # by the name that git gives a file's content

    def __init__(self, commit, mend):
        self.commit = git("rev-parse", "--short=7", commit).decode().strip()
        self.name = mended(commit, mend) if mend else git("rev-parse", f"{commit}^{{tree}}").decode().strip()
        self.files = {}
        self.contents = {}
        for entry in git("ls-tree", "-r", self.name, "--", "crates", "crates.txt").decode().splitlines():
            blob, path = entry.split()[2:4]
            if path == "crates.txt" or PROVED_FILE.fullmatch(path):
                self.files[path] = blob
        if "crates.txt" not in self.files:
            raise Stopped(f"{commit} has no crates.txt")
        listed = (line.partition("#")[0].partition(":") for line in git("cat-file", "blob", self.files["crates.txt"]).decode().splitlines())
        # A name may have what kind of crate it is after it.
        self.below = {crate.split()[0]: below.split() for crate, _, below in listed if crate.strip()}

    def order(self):
        """The crates, each after those that it stands on."""
        placed = []

        def place(crate):
            if crate in self.below and crate not in placed:  # the kit's own libraries are not in crates.txt
                for lower in self.below[crate]:
                    place(lower)
                placed.append(crate)

        for crate in self.below:
            place(crate)
        return placed

    def is_older(self):
        """Whether its definitions are in an older kit's spelling, which this kit does not read."""
        found = subprocess.run(["git", "grep", "-qF", OLDER, self.name, "--", "crates/arbiter/specs"], cwd=ROOT, capture_output=True)
        return found.returncode == 0

    def content(self, crate):
        """The same for two crates exactly if the check reads the same of both, and of all that they stand on."""
        if crate not in self.contents:
            own = sorted(file for file in self.files.items() if file[0].startswith(f"crates/{crate}/"))
            below = [(lower, self.content(lower) if lower in self.below else "of the kit") for lower in self.below[crate]]
            self.contents[crate] = hashlib.sha256(repr((own, below)).encode()).hexdigest()
        return self.contents[crate]

    def lines(self, folder):
        blobs = [blob for path, blob in self.files.items() if path.split("/")[2:3] == [folder]]
        unknown = [blob for blob in blobs if blob not in self.lines_of]
        rest = git("cat-file", "--batch", given="".join(f"{blob}\n" for blob in unknown).encode()) if unknown else b""
        for blob in unknown:  # each as '<name> blob <size>', a newline, the content, a newline
            said, rest = rest.split(b"\n", 1)
            size = int(said.split()[2])
            self.lines_of[blob] = rest[:size].count(b"\n")
            rest = rest[size + 1:]
        return sum(self.lines_of[blob] for blob in blobs)


@functools.cache
def tree_of(commit, mend=None):
    return Tree(commit, mend)


# ---- what rt does


def make_twin(folder, seconds):
    """A twin of the kit: links to all that it has, but for rt, which takes for the kit where it stands, and its prover, which leaves in a file of
    the crate's name what processor time it took."""
    kit = os.path.dirname(subprocess.run(["rt", "doc"], check=True, capture_output=True, text=True).stdout.strip())
    os.makedirs(f"{folder}/bin")
    for part in (".", "bin"):
        for entry in os.listdir(f"{kit}/{part}"):
            if not os.path.lexists(f"{folder}/{part}/{entry}"):
                os.symlink(f"{kit}/{part}/{entry}", f"{folder}/{part}/{entry}")
    for own in ("rt", "rtlib.py", "rattle"):
        os.remove(f"{folder}/bin/{own}")
    for own in ("rt", "rtlib.py"):
        shutil.copy(f"{kit}/bin/{own}", f"{folder}/bin/{own}")
    prover = "bin/rattle"
    with open(f"{folder}/{prover}", "w", encoding="utf-8") as file:
        # rt calls it with: check --crate-name NAME ..., and otherwise to ask what it can do.
        file.write(f'#!/bin/sh\n"{kit}/{prover}" "$@"\nended=$?\nif [ "$2" = --crate-name ]; then times >>"{seconds}/$3"; fi\nexit $ended\n')
    os.chmod(f"{folder}/{prover}", 0o755)


class Aside:
    """A checkout outside the repository, made once something is to be proved, in which rt proves one crate after the other."""

    def __enter__(self):
        self.room = tempfile.TemporaryDirectory()
        self.folder, self.twin, self.seconds = (f"{self.room.name}/{part}" for part in ("aside", "kit", "seconds"))
        self.tree = None
        return self

    def __exit__(self, *_):
        if os.path.exists(self.folder):
            git("worktree", "remove", "--force", self.folder)
        self.room.cleanup()

    def begin(self, tree):
        os.makedirs(KEPT, exist_ok=True)
        self.lock = open(f"{KEPT}/lock", "w")
        try:
            fcntl.flock(self.lock, fcntl.LOCK_EX | fcntl.LOCK_NB)
        except BlockingIOError:
            raise Stopped("another run measures here, and keeps what it proved in the same folder") from None
        os.makedirs(self.seconds)
        make_twin(self.twin, self.seconds)
        git("worktree", "add", "--detach", "--no-checkout", "--quiet", self.folder, tree.commit)

    def stand_at(self, tree):
        if self.tree is None:
            self.begin(tree)
        if self.tree is not tree:
            git("-C", self.folder, "read-tree", "--reset", "-u", tree.name)
        self.tree = tree

    def prove(self, tree, crate):
        """Whether a crate is proved, and its seconds. rt proves anew what it stands on only if that was not proved last."""
        if tree.is_older():
            raise Stopped(f"{tree.commit} is in an older kit's spelling, which this kit does not read; docs/REQUESTS.md has its figures")
        self.stand_at(tree)
        here = f"{self.folder}/crates/{crate}"
        shutil.rmtree(f"{here}/out", ignore_errors=True)
        if os.path.exists(f"{self.seconds}/{crate}"):
            os.remove(f"{self.seconds}/{crate}")
        log = f"{KEPT}/{crate}.log"
        code, wall = timed([f"{self.twin}/bin/rt", "check", "--jobs", str(JOBS)], here, os.environ, log)
        if code not in (0, 1) or not os.path.exists(f"{self.seconds}/{crate}"):
            raise Stopped(f"rt check {crate} ended with {code} at {tree.commit}; see {os.path.relpath(log, ROOT)}")
        # Of each run of the prover the shell's own seconds, and then the prover's.
        children = " ".join(text_of(f"{self.seconds}/{crate}").splitlines()[1::2])
        seconds = sum(60 * int(minutes) + float(rest) for minutes, rest in re.findall(r"(\d+)m([\d.]+)s", children))
        return {"proved": code == 0, "seconds": round(seconds, 2), "wall": round(wall, 2)}


def timed(command, folder, environment, log):
    """The status of a command, and the seconds that it took on the clock."""
    began = time.monotonic()
    with open(log, "wb") as printed:
        running = subprocess.Popen(command, cwd=folder, env=environment, stdin=subprocess.DEVNULL, stdout=printed, stderr=subprocess.STDOUT,
                                   start_new_session=True)
        try:
            code = running.wait()
        except BaseException:  # an interrupted run leaves no prover behind
            os.killpg(running.pid, signal.SIGTERM)
            running.wait()
            raise
    return code, time.monotonic() - began

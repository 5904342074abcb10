"""Runs of the built program, and reports of them."""
import os
import pathlib
import subprocess
import sys

TOP = pathlib.Path(__file__).resolve().parent.parent.parent

# More seconds than any run takes: one that does not end is wrong.
SECONDS = 300


def built():
    """The program that dist/ carries, where it was built from these sources and runs here; else the one that ./build makes."""
    home = subprocess.run([TOP / "dist/home"], stdout=subprocess.PIPE)
    if home.returncode == 0:
        return os.path.join(os.fsdecode(home.stdout).rstrip("\n"), "pb")
    if subprocess.run([TOP / "build"]).returncode != 0:
        sys.exit(3)
    return str(TOP / "out/pb")


def run(words, given=b"", folder=None, setting=None):
    """The status, the output and the error text of a run; None for all where it did not end."""
    how = {"input": given, "capture_output": True, "cwd": folder, "timeout": SECONDS}
    if setting:
        how["env"] = {**os.environ, **setting}
    try:
        ended = subprocess.run(words, **how)
    except subprocess.TimeoutExpired:
        return None, None, None
    return ended.returncode, ended.stdout, ended.stderr


def all_of(terminal):
    """All that was written to a terminal whose other end is closed. Its bytes may come in parts, and the end is an error."""
    text = b""
    while True:
        try:
            part = os.read(terminal, 4096)
        except OSError:
            return text
        if not part:
            return text
        text += part


def faulty(folder):
    """The library that lets calls fail, made in a folder: faulty.c has its settings."""
    library = os.path.join(folder, "faulty.so")
    source = TOP / "checks/program/faulty.c"
    subprocess.run(["cc", "-O1", "-shared", "-fPIC", "-o", library, source, "-ldl"], check=True)
    return library


class Tally:
    """Counts runs, and reports those that are wrong."""

    def __init__(self):
        self.runs = 0
        self.wrong = 0

    def tell(self, what, wanted, found):
        """Compares what was found with what is wanted, and reports a difference."""
        self.runs += 1
        if found != wanted:
            self.wrong += 1
            print(f"{what}\n    wanted {short(wanted)}\n    found  {short(found)}", file=sys.stderr)

    def end(self, what):
        """Prints how many runs there were, and returns the exit status."""
        print(f"{what}: {self.runs} runs, {self.wrong} wrong")
        return 1 if self.wrong or not self.runs else 0


def short(answer):
    text = repr(answer)
    return text if len(text) < 500 else f"{text[:300]} .. {text[-150:]}"

"""Runs the commands on generated files and prints a table of what they take; bench/run calls it."""
import os
import re
import shutil
import subprocess
import sys
import time

# The kinds of bench/generate.py, and the commands that each is given to.
COMMANDS = {
    "usual": ["show", "tidy", "tidy --normal"],
    "short": ["show", "tidy", "tidy --normal"],
    "commented": ["show", "tidy"],
    "rups": ["show", "tidy"],
    "pols": ["show", "tidy"],
}
# Instructions a byte: those of a plain Rust program of the same function, where they were counted, and the target.
YARDSTICKS = {
    ("usual", "show"): (19, 30),
    ("usual", "tidy"): (18, 30),
    ("usual", "tidy --normal"): (64, 110),
    ("short", "show"): (36, 55),
    ("short", "tidy"): (29, 55),
    ("short", "tidy --normal"): (None, 110),
    ("commented", "show"): (None, 20),
    ("commented", "tidy"): (None, 20),
    ("rups", "show"): (40, 75),
    ("rups", "tidy"): (33, 75),
    ("pols", "show"): (71, 130),
    ("pols", "tidy"): (61, 130),
}
GENERATOR = os.path.join(os.path.dirname(os.path.abspath(__file__)), "generate.py")
# Instructions are counted on a file of so many megabytes.
COUNTED = 5


def file_of(kind, size, folder):
    """Writes a file of a kind; its path."""
    path = os.path.join(folder, f"{kind}-{size}")
    if not os.path.exists(path):
        with open(path, "wb") as file:
            subprocess.run([sys.executable, GENERATOR, kind, str(size)], stdout=file, check=True)
    return path


def start(words, path):
    """Starts a run that reads the file, and whose output goes nowhere."""
    with open(path, "rb") as file, open(os.devnull, "wb") as out:
        return subprocess.Popen(words, stdin=file, stdout=out)


def seconds_of(words, path):
    """The seconds that a run takes."""
    begin = time.perf_counter()
    if start(words, path).wait() != 0:
        sys.exit(f"{' '.join(words)} failed on {path}")
    return time.perf_counter() - begin


def peak_of(words, path):
    """The most memory that a run holds, in megabytes, as the system tells it while it runs."""
    process = start(words, path)
    peak = 0
    while process.poll() is None:
        with open(f"/proc/{process.pid}/status") as status:
            for line in status:
                if line.startswith("VmHWM:"):
                    peak = int(line.split()[1])
        time.sleep(0.01)
    return peak / 1000


def instructions_of(words, path, folder):
    """The instructions for a byte of a file, or a dash where there is no valgrind."""
    if shutil.which("valgrind") is None:
        return "-"
    tool = ["valgrind", "--tool=callgrind", f"--callgrind-out-file={folder}/callgrind.out"]
    with open(path, "rb") as file:
        told = subprocess.run(tool + words, stdin=file, stdout=subprocess.DEVNULL, stderr=subprocess.PIPE, text=True, check=True).stderr
    instructions = int(re.search(r"Collected : (\d+)", told)[1])
    return f"{instructions / os.path.getsize(path):.0f}"


def main():
    program, folder, size, times = sys.argv[1], sys.argv[2], int(sys.argv[3]), int(sys.argv[4])
    print(f"| File | Command | Instructions a byte | Target | Yardstick | {size} MB | MB a second | Memory | At double size |")
    print("|---|---|---|---|---|---|---|---|---|")
    for kind, commands in COMMANDS.items():
        for command in commands:
            words = [program] + command.split()
            instructions = instructions_of(words, file_of(kind, COUNTED, folder), folder)
            once, twice = (file_of(kind, number * size, folder) for number in [1, 2])
            seconds, longer = (min(seconds_of(words, path) for _ in range(times)) for path in [once, twice])
            peak = peak_of(words, once)
            plain, target = YARDSTICKS[kind, command]
            print(
                f"| {kind} | `{command}` | {instructions} | {target} | {plain or '-'} | {seconds:.2f} s | {size / seconds:.0f} | {peak:.0f} MB | {longer / seconds:.2f} times the time |",
                flush=True,
            )


if __name__ == "__main__":
    main()

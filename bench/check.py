"""Runs `pb check` on each kind of bench/propagation.py and prints what it takes; bench/check calls it."""
import os
import re
import shutil
import subprocess
import sys
import time

BENCH = os.path.dirname(os.path.abspath(__file__))
# The script that writes each kind. Those with dear steps have a twentieth of the steps.
KINDS = [
    *[(kind, "propagation.py", 1) for kind in ["chain", "units", "common", "long", "dead", "live"]],
    *[(kind, "search.py", 20) for kind in ["random", "pigeons", "parity"]],
    *[(kind, "learn.py", 20) for kind in ["random", "pigeons"]],
    ("wide", "propagation.py", 20),
]
# What a step of a kind leaves in memory: how many things, and their name.
LEFT = {"dead": (1, "deleted constraint"), "live": (20, "live term")}


def files_of(script, kind, count, folder):
    """Writes an instance and its proof; their paths."""
    subprocess.run([sys.executable, os.path.join(BENCH, script), kind, str(count), folder], check=True)
    return [os.path.join(folder, f"{kind}.{end}") for end in ["opb", "pbp"]]


def run(words):
    """The seconds of a run and the most memory that it held, in megabytes."""
    begin = time.perf_counter()
    process = subprocess.Popen(words, stdout=subprocess.DEVNULL)
    _, status, usage = os.wait4(process.pid, 0)
    if status != 0:
        sys.exit(f"{' '.join(words)} failed")
    return time.perf_counter() - begin, usage.ru_maxrss / 1000


def instructions_of(words, folder):
    """The instructions of a run, or None where there is no valgrind."""
    if shutil.which("valgrind") is None:
        return None
    out = os.path.join(folder, "callgrind.out")
    tool = ["valgrind", "--tool=callgrind", f"--callgrind-out-file={out}"]
    told = subprocess.run(tool + words, capture_output=True, text=True, check=True).stderr
    return int(re.search(r"Collected : (\d+)", told)[1])


def visits_of(rows, files):
    """The statements of a proof, and the visits that their propagation takes, as the program of the rows reports them."""
    told = subprocess.run([rows, "--visits", *files], capture_output=True, text=True, check=True).stdout
    return [int(number) for number in re.fullmatch(r"(\d+) statements, (\d+) visits\n", told).groups()]


def main():
    program, rows, folder, most, times = sys.argv[1], sys.argv[2], sys.argv[3], int(sys.argv[4]), int(sys.argv[5])
    for kind, script, part in KINDS:
        peaks, count = [], max(most // part, 1)
        name = f"{script.removesuffix('.py')} {kind}"
        for size in [count, 10 * count]:
            words = [program, "check"] + files_of(script, kind, size, folder)
            runs = [run(words) for _ in range(times)]
            seconds, peak = min(seconds for seconds, _ in runs), max(peak for _, peak in runs)
            print(f"{name} {size}: {seconds:.2f} s, {seconds / size * 1e6:.2f} microseconds a step, {peak:.0f} MB", flush=True)
            peaks.append(peak)
        if kind in LEFT:
            number, thing = LEFT[kind]
            print(f"{name}: {(peaks[1] - peaks[0]) * 1e6 / (9 * count * number):.0f} bytes a {thing}", flush=True)
        size = max(count // 10, 1)
        files = files_of(script, kind, size, folder)
        statements, visits = visits_of(rows, files)
        print(f"{name} {size}: {visits} visits in {statements} statements, {visits / size:.1f} a step", flush=True)
        instructions = instructions_of([program, "check"] + files, folder)
        if instructions is not None:
            print(f"{name} {size}: {instructions / size:.0f} instructions a step", flush=True)


if __name__ == "__main__":
    main()

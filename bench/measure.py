"""Times a program over scripts of growing length, and the same program of another compiler beside it.

usage: measure.py LAUNCHER PROGRAM [OTHER]

The runs of all scripts take turns, three rounds of them, and each figure is the best of the three. The status is 1 where a
command of a longer script takes more than so many times as long as one of the shorter script of its kind.
"""
import os
import subprocess
import sys
import tempfile

import scripts

ROUNDS = 3
# A script, a longer one of the same kind, and how many times as long a command of that may take.
GROWING = [
    ("2,000 commands", "20,000 commands", 1.3),
    ("1,984 timed out", "20,000 timed out", 1.3),
    ("2,048 drained", "20,480 drained", 1.1),
    ("2,048 drained", "65,536 drained", 1.1),
]


# The name of a run that reads no script, its commands, and the program's words.
MADE = ("20,000 made", 20_000, ["--make", "20000"])


def good_in(text):
    """How many commands were answered GOOD, by result lines or by a summary."""
    lines = text.splitlines()
    if lines[0].startswith(b"commands "):
        return int(lines[0].split()[3])
    return sum(line.startswith(b"result") and b" answered 00 00 " in line for line in lines)


def play(launcher, program, path, wanted, words):
    """The seconds of one run, and the most memory that it had, in MiB."""
    with open(path) as source:
        run = subprocess.run([launcher, program, *words], stdin=source, capture_output=True)
    answered = good_in(run.stdout)
    seconds, kib, status = run.stderr.split()[-3:]
    if int(status) != 0:
        sys.exit(f"bench: the program ended with {int(status)}")
    if answered != wanted:
        sys.exit(f"bench: {answered} of {wanted} commands were answered GOOD")
    return float(seconds), int(kib) / 1024


def measure(launcher, programs, files):
    """The best run of each program over each script."""
    best = {}
    for _ in range(ROUNDS):
        for name, path, count, words in files:
            for program in programs:
                run = play(launcher, program, path, count, words)
                best[name, program] = min(run, best.get((name, program), run))
    return best


def main():
    launcher, program, *others = sys.argv[1:]
    with tempfile.TemporaryDirectory() as folder:
        files = [(*written, []) for written in scripts.write_all(folder)]
        files.append((MADE[0], os.devnull, *MADE[1:]))
        best = measure(launcher, [program, *others], files)
    each = {}
    for name, _, count, _ in files:
        seconds, memory = best[name, program]
        each[name] = seconds / count
        beside = "".join(f", {best[name, other][0] / seconds:.2f} times by Rattle's compiler" for other in others)
        print(f"{name}: {seconds:.2f} s, {1e6 * each[name]:.1f} us a command, {memory:.1f} MiB{beside}")
    usual = each["20,000 commands"]
    for name in each:
        if name not in ("2,000 commands", "20,000 commands"):
            print(f"{name} to 20,000 commands: {each[name] / usual:.2f} times as long a command")
    for short, long, most in GROWING:
        growth = each[long] / each[short]
        print(f"{long} to {short}: {growth:.2f} times as long a command")
        if growth > most:
            sys.exit(f"bench: more than {most} times as long a command")


main()

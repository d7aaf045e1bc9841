"""The scripts of the bench, with all their step lines. Run with a folder, it writes them there."""
import os
import sys

MOST_COMMANDS = 65_536


def unit(i):
    return f"0:{i // 16}:{i % 16}"


def hosts(units, canq, depth, faults):
    """A host with its units and, of the units in turn, planned faults that hit no call that is made."""
    yield f"host 0 {canq} adtbh"
    for i in range(units):
        yield f"lun 0 {unit(i)} 65536 {depth}"
    for i in range(faults):
        yield f"plan 0 {unit(i % units)} latency 65535 1 1 5"


def reads(i):
    return f"2800{8 * i % 65536:08x}00000800"


def writes(i):
    return f"2a00{8 * i % 65536:08x}00000800 {i % 256:02x}"


def commands(count, units, block, timeout=30):
    """READ(10) or WRITE(10) of eight blocks, of all units in turn, in four lanes in turn."""
    for i in range(1, count + 1):
        yield f"cmd {i} 0 {i % 4} {unit(i % units)} {timeout} 5 - {block(i)}"


def round_trip(numbers, spare):
    """These attempts are sent, answered, owned and settled. So many sends more than that are tried, which are skipped."""
    for _ in range(len(numbers) + spare):
        yield "step 0 send"
    yield "step 0 tick"
    for _ in numbers:
        yield "step 0 work"
    for n in numbers:
        yield f"step 0 own {n} answer"
    for n in numbers:
        yield f"step 0 settle {n}"


def script(count, units=4, at_once=32, depth=16, faults=0, block=reads):
    """So many commands are under way at a time."""
    yield from hosts(units, 2 * at_once, depth, faults)
    yield from commands(count, units, block)
    for first in range(1, count + 1, at_once):
        numbers = range(first, min(first + at_once, count + 1))
        for n in numbers:
            yield f"step 0 submit {n % 4}"
        yield from round_trip(numbers, 0)
    yield "end stop"


def skipping(count, units=256):
    """Each unit takes one command at once. Two for each are handed in, and the sends that meet only full units are skipped."""
    yield from hosts(units, 1024, 1, 0)
    yield from commands(count, units, reads)
    for first in range(1, count + 1, 2 * units):
        numbers = range(first, min(first + 2 * units, count + 1))
        for n in numbers:
            yield f"step 0 submit {n % 4}"
        yield from round_trip(numbers[:units], len(numbers[units:]))
        yield from round_trip(numbers[units:], 0)
    yield "end stop"


def timed_out(count, units=4, at_once=32):
    """The first attempt of each command isn't answered: it is asked about, taken by its timer, aborted and sent again. The number of
    commands is a multiple of those that are under way at a time."""
    each = at_once // units
    yield from hosts(units, 2 * at_once, 16, 0)
    for i in range(units):
        for k in range(1, each + 1):
            yield f"plan 0 {unit(i)} never {k} {2 * each} {count // at_once}"
    yield from commands(count, units, reads, 2)
    for first in range(1, count + 1, at_once):
        for n in range(first, first + at_once):
            yield f"step 0 submit {n % 4}"
        for _ in range(at_once):
            yield "step 0 send"
        yield "step 0 tick"
        yield "step 0 tick"
        lost = range(2 * first - 1, 2 * first - 1 + at_once)
        for _ in lost:
            yield "step 0 due"
        for n in lost:
            yield f"step 0 own {n} expiry"
        for n in lost:
            yield f"step 0 settle {n}"
        for _ in lost:
            yield "step 0 abort"
        yield "step 0 tick"
        yield from round_trip(range(lost.stop, lost.stop + at_once), 0)
    yield "end stop"


def recovering(count, units, at_once):
    """The first attempt of each command isn't answered, and the host makes no aborts outside recovery: so many commands fail at a
    time, recovery aborts and tests each, and all are sent again. The number of commands is a multiple of those that fail at a time."""
    each = at_once // units
    yield f"host 0 {at_once} adtbh noasync"
    for i in range(units):
        yield f"lun 0 {unit(i)} 65536 {each}"
    for i in range(units):
        for k in range(1, each + 1):
            yield f"plan 0 {unit(i)} never {k} {2 * each} {count // at_once}"
    yield from commands(count, units, reads, 2)
    for first in range(1, count + 1, at_once):
        for n in range(first, first + at_once):
            yield f"step 0 submit {n % 4}"
        for _ in range(at_once):
            yield "step 0 send"
        yield "step 0 tick"
        yield "step 0 tick"
        lost = range(2 * first - 1, 2 * first - 1 + at_once)
        for _ in lost:
            yield "step 0 due"
        for n in lost:
            yield f"step 0 own {n} expiry"
        for n in lost:
            yield f"step 0 settle {n}"
        yield "step 0 eh begin"
        for _ in lost:
            yield "step 0 eh act"
        for _ in lost:
            yield "step 0 eh flush"
        yield "step 0 eh end"
        yield from round_trip(range(lost.stop, lost.stop + at_once), 0)
    yield "end stop"


def drained(count, units=4):
    """The host is run on until it is drained, without step lines. In each sixteen sendings to a unit one finds it busy, one brings a
    check that is tried again, one takes three ticks, and one isn't answered and is aborted. Each command ends GOOD."""
    yield from hosts(units, 64, 16, 0)
    faults = ["busy 2 16", "check 5 16", "latency 8 16", "never 11 16"]
    values = {"check": " b 00 00", "latency": " 3"}
    for i in range(units):
        for fault in faults:
            kind = fault.split()[0]
            yield f"plan 0 {unit(i)} {fault} {count // 8 // units}{values.get(kind, '')}"
    for line in commands(count, units, reads, 4):
        yield line.replace(" 4 5 - ", " 4 20 - ")
    yield "end drain"


# The name of each script, how many commands it has, and its lines.
SCRIPTS = [
    ("2,000 commands", 2_000, lambda: script(2_000)),
    ("20,000 commands", 20_000, lambda: script(20_000)),
    ("65,536 commands", MOST_COMMANDS, lambda: script(MOST_COMMANDS)),
    ("20,000 writes", 20_000, lambda: script(20_000, block=writes)),
    ("512 under way", 20_000, lambda: script(20_000, at_once=512, depth=128)),
    ("256 units", 20_000, lambda: script(20_000, units=256, at_once=512)),
    ("a third of the sends skipped", 20_000, lambda: skipping(20_000)),
    ("20,000 planned faults", 20_000, lambda: script(20_000, faults=20_000)),
    ("60,000 faults of a unit", 20_000, lambda: script(20_000, units=1, depth=32, faults=60_000)),
    ("1,984 timed out", 1_984, lambda: timed_out(1_984)),
    ("20,000 timed out", 20_000, lambda: timed_out(20_000)),
    ("2,048 recovered, 64 at a time", 2_048, lambda: recovering(2_048, 16, 64)),
    ("2,048 recovered, 1,024 at a time", 2_048, lambda: recovering(2_048, 256, 1_024)),
    ("2,048 drained", 2_048, lambda: drained(2_048)),
    ("20,480 drained", 20_480, lambda: drained(20_480)),
    ("65,536 drained", MOST_COMMANDS, lambda: drained(MOST_COMMANDS)),
]


def write_all(folder):
    """Writes each script to a file, and gives its name, its path and how many commands it has."""
    written = []
    for name, count, lines in SCRIPTS:
        path = os.path.join(folder, name.replace(" ", "-").replace(",", "") + ".script")
        with open(path, "w") as file:
            file.writelines(line + "\n" for line in lines())
        written.append((name, path, count))
    return written


if __name__ == "__main__":
    if len(sys.argv) != 2:
        sys.exit("usage: scripts.py FOLDER")
    os.makedirs(sys.argv[1], exist_ok=True)
    for _, path, _ in write_all(sys.argv[1]):
        print(path)

#!/usr/bin/env python3
"""Judges what scsi_play printed for a script: each journal by the rules, written anew from docs/DEFINITIONS.md.

usage: tools/judge.py SCRIPT [TEXT]

TEXT is a file; without it standard input is read. Each journal is read twice: place by place, with what is owed after each
entry, and group by group, where an entry is followed by all that it makes owed. Ticks, results and skipped step lines are
judged as well; what the lower layer does is not. The exit status is 0 where everything stands; else 1, and the first entry
or line that doesn't stand is printed; or 2 where the words aren't these.
"""
import sys
from collections import namedtuple

Answer = namedtuple("Answer", "host status moved sum sense")
Unit = namedtuple("Unit", "dev depth start")
Command = namedtuple("Command", "id lane dev timeout allowed failfast")
Host = namedtuple("Host", "number tags handlers noasync units commands")
Script = namedtuple("Script", "hosts steps drains")
Printed = namedtuple("Printed", "journals results skips")

NO_CONNECT = Answer(1, 0, 0, 0, b"")
TIME_OUT = Answer(3, 0, 0, 0, b"")
LAST_NUMBER = 2**60 - 1
RESETS = {4: "d", 5: "t", 6: "b", 7: "h"}
CALLBACKS = {2: "a", **RESETS}
ONLINE = ("created", "running", "quiesce", "block")
BECOMES = {
    "running": ("created", "offline", "quiesce", "block"),
    "quiesce": ("running",),
    "block": ("running",),
    "offline": ("created", "running", "quiesce", "block"),
    "cancel": ("created", "running", "quiesce", "block", "offline"),
    "del": ("created", "cancel"),
}


class Wrong(Exception):
    """Something that doesn't stand."""


# ---- sense data and dispositions


def is_valid_sense(sense):
    """SPC-4, 4.5: fixed or descriptor form, eight bytes or more, and each descriptor whole."""
    if not sense or not 0x70 <= sense[0] % 128 <= 0x73 or len(sense) < 8:
        return False
    if sense[0] % 128 < 0x72:
        return True
    end, place = min(len(sense), 8 + sense[7]), 8
    while place < end:
        if place + 1 >= len(sense):
            return False
        place += 2 + sense[place + 1]
        if place > end:
            return False
    return True


def sense_triple(sense):
    """Key, ASC and ASCQ of valid sense data."""
    if sense[0] % 128 >= 0x72:
        return sense[1] % 16, sense[2], sense[3]
    end = min(len(sense), 8 + sense[7])
    return sense[2] % 16, sense[12] if end > 12 else 0, sense[13] if end > 13 else 0


def sense_says(sense):
    if sense[0] % 128 in (0x71, 0x73):
        return "retry"
    key, asc, ascq = sense_triple(sense)
    if key == 0xB:
        return "retry"
    if key in (2, 6):
        if (asc, ascq) == (4, 2):
            return "fail"
        return "retry" if (asc, ascq) == (4, 1) or asc == 0x29 else "success"
    if key == 3:
        return "success" if asc in (0x11, 0x13, 0x14) else "retry"
    return "success"


def answer_says(answer):
    if answer.host != 0:
        table = {"success": (1, 4, 5, 8), "retry": (2, 6, 7, 0xB), "requeue": (0xC, 0xD)}
        code = answer.host
    elif answer.status == 2 and is_valid_sense(answer.sense):
        return sense_says(answer.sense)
    else:
        table = {"success": (0, 4, 0x18, 0x30), "requeue": (8, 0x28), "retry": (0x40,)}
        code = answer.status
    return next((said for said, codes in table.items() if code in codes), "fail")


def disposition(answer, may_retry, online):
    if not online:
        return "success"
    said = answer_says(answer)
    return "success" if said == "retry" and not may_retry else said


def is_good(answer):
    return answer is not None and answer.host == 0 and answer.status == 0


# ---- what stands in the text


def address(word):
    return tuple(int(part) for part in word.split(":"))


def answer_of(words):
    host, status, moved, total, sense = words
    return Answer(int(host, 16), int(status, 16), int(moved), int(total), b"" if sense == "-" else bytes.fromhex(sense))


def scope_of(level, word):
    if level in (1, 2):
        return int(word)
    return () if word == "-" else address(word)


READERS = {
    "took": lambda w: (int(w[0]),),
    "sent": lambda w: (int(w[0]), int(w[1]), int(w[2])),
    "bounced": lambda w: (int(w[0]), int(w[1]), w[2]),
    "ready": lambda w: (int(w[0]), answer_of(w[1:])),
    "owned": lambda w: (int(w[0]), w[1]),
    "judged": lambda w: (int(w[0]), int(w[1]), w[2]),
    "abortset": lambda w: (int(w[0]), int(w[1])),
    "aborted": lambda w: (int(w[0]), int(w[1]), w[2]),
    "failed": lambda w: (int(w[0]), int(w[1]), w[2]),
    "cleared": lambda w: (int(w[0]), int(w[1])),
    "sensed": lambda w: (int(w[0]), int(w[1]), bytes.fromhex(w[2])),
    "again": lambda w: (int(w[0]), w[1]),
    "told": lambda w: (int(w[0]), answer_of(w[1:])),
    "act": lambda w: (int(w[0]), scope_of(int(w[0]), w[1]), w[2]),
    "probe": lambda w: (address(w[0]), int(w[1], 16), None if w[2] == "silent" else answer_of(w[2:])),
    "offline": lambda w: (address(w[0]),),
    "state": lambda w: (address(w[0]), w[1]),
    "ehbegin": lambda w: (),
    "ehend": lambda w: (),
    "tick": lambda w: (),
    **{kind: lambda w: (int(w[0]),) for kind in ("due", "longer", "timerdone", "late")},
}


def read_text(lines):
    """The journals by host, each of (line, tick, entry); the results by host; the skipped step lines."""
    journals, results, skips, host, ended = {}, {}, {}, None, False
    for number, line in enumerate(lines, 1):
        words = line.split()
        try:
            if ended:
                raise Wrong
            if words[0] == "host":
                host = int(words[1])
                journals[host], results[host] = [], []
            elif words[0] == "result":
                results[host].append(words[1:])
            elif words[0] == "skipped":
                skips[int(words[1])] = words[2]
            elif words == ["end"]:
                ended = True
            else:
                journals[host].append((number, int(words[0]), (words[1], *READERS[words[1]](words[2:]))))
        except (KeyError, ValueError, IndexError, Wrong) as error:
            raise Wrong(f"line {number} of the text: {line}") from error
    if not ended:
        raise Wrong("the text has no end")
    return Printed(journals, results, skips)


def is_found(host, dev, silent):
    """Whether the target of a device tells its units to a scan: its logical unit 0 answers the first two commands that it is sent."""
    zero = (*dev[:2], 0)
    if not any(unit.dev == zero for unit in host.units):
        return False
    hits = (range(first, first + every * uses, every) for unit, first, every, uses in silent if unit == zero)
    return not any(n in hit for hit in hits for n in (1, 2))


def scanned(host, silent):
    """The host with its units in the states that a scan of their targets leaves them in."""
    starts = ["running" if u.start != "created" or is_found(host, u.dev, silent) else "del" for u in host.units]
    return host._replace(units=[unit._replace(start=start) for unit, start in zip(host.units, starts)])


def read_script(lines):
    """The hosts of a good script, scanned, and its step lines."""
    hosts, silent, steps, drains = {}, {}, [], False
    for number, line in enumerate(lines, 1):
        words = line.split()
        if not words or words[0].startswith("#"):
            continue
        if words[0] == "host":
            hosts[int(words[1])] = Host(int(words[1]), int(words[2]), words[3], "noasync" in words[4:], [], [])
        elif words[0] == "lun":
            start = "created" if "scan" in words[5:] else "running"
            hosts[int(words[1])].units.append(Unit(address(words[2]), int(words[4]), start))
        elif words[0] == "plan" and words[3] == "silent":
            silent.setdefault(int(words[1]), []).append((address(words[2]), *map(int, words[4:7])))
        elif words[0] == "cmd":
            command = Command(int(words[1]), int(words[3]), address(words[4]), int(words[5]), int(words[6]), words[7] != "-")
            hosts[int(words[2])].commands.append(command)
        elif words[0] == "step":
            steps.append((number, int(words[1]), words[2:]))
        elif words[0] == "end":
            drains = words[1] == "drain"
    return Script({no: scanned(host, silent.get(no, [])) for no, host in hosts.items()}, steps, drains)


# ---- what a journal says


class Attempt:
    def __init__(self, command, tag, tick):
        self.command, self.tag, self.sent_at, self.longers = command, tag, tick, 0
        self.is_open, self.is_due, self.said_done = True, False, False
        self.answered, self.answer, self.owner, self.settled, self.judgement = False, None, None, False, None


class Standing:
    def __init__(self):
        self.at, self.attempt, self.last, self.retries, self.aborted, self.report = "new", None, None, 0, False, None


class Journal:
    """What the entries so far say of a host."""

    def __init__(self, host):
        self.host = host
        self.commands = {k.id: k for k in host.commands}
        self.stands = {k.id: Standing() for k in host.commands}
        self.states = {u.dev: u.start for u in host.units}
        self.most = {u.dev: u.depth for u in host.units}
        self.depths = {u.dev: (u.depth, 0) for u in host.units}
        self.attempts, self.late, self.ticks = {}, {}, 0
        self.taken, self.aborts, self.failed, self.cleared = [], [], [], set()
        self.begun, self.recovering, self.last_act = False, False, None
        self.host_paused, self.paused, self.newest = False, set(), None

    # of commands and devices

    def dev(self, c):
        return self.commands[c].dev

    def is_online(self, dev):
        return self.states[dev] in ONLINE

    def busy(self):
        return [c for c, k in self.stands.items() if k.at == "busy"]

    def busy_on(self, dev):
        return sum(1 for c in self.busy() if self.dev(c) == dev)

    def retries_remain(self, c):
        return self.stands[c].retries < self.commands[c].allowed

    def may_retry(self, c):
        return self.is_online(self.dev(c)) and not self.commands[c].failfast and self.retries_remain(c)

    def disposition(self, c, answer):
        may = self.retries_remain(c) and not self.commands[c].failfast
        return disposition(answer, may, self.is_online(self.dev(c)))

    def next_of_lane(self, lane):
        return next((k for k in self.host.commands if k.lane == lane and self.stands[k.id].at == "new"), None)

    def is_ready(self, dev):
        return (
            self.states[dev] == "running"
            and not self.host_paused
            and dev not in self.paused
            and len(self.busy()) < self.host.tags
            and self.busy_on(dev) < self.depths[dev][0]
        )

    def pick(self):
        for c in self.taken:
            if self.stands[c].at == "waits" and (not self.is_online(self.dev(c)) or self.is_ready(self.dev(c))):
                return c
        return None

    def least_free(self):
        held = {self.attempts[self.stands[c].attempt].tag for c in self.busy()}
        return next(t for t in range(len(held) + 1) if t not in held)

    # of attempts

    def deadline(self, n):
        a = self.attempts[n]
        return a.sent_at + self.commands[a.command].timeout * (1 + a.longers)

    def is_expired(self, n):
        a = self.attempts[n]
        return a.is_open and self.deadline(n) <= self.ticks and not a.is_due and not a.said_done

    def may_ask(self):
        expired = [n for n in self.attempts if self.is_expired(n)]
        return min(expired, key=lambda n: (self.deadline(n), n), default=None)

    def is_open(self, n):
        return n in self.attempts and self.attempts[n].is_open

    def owner(self, n):
        return self.attempts[n].owner if n in self.attempts else None

    def is_settled(self, n):
        return self.attempts[n].settled

    def to_settle(self, n):
        return self.owner(n) is not None and not self.is_settled(n)

    def answer(self, n):
        return self.attempts[n].answer if n in self.attempts else None

    def has_abort_left(self, c):
        return not self.host.noasync and not self.stands[c].aborted and self.retries_remain(c)

    # of recovery

    def is_quiet(self):
        failed = {c for c, _, _ in self.failed}
        return all(c in failed for c in self.busy())

    def todo(self):
        return [f for f in self.failed if f[0] not in self.cleared]

    def failed_answer(self, failure):
        return None if failure[2] == "cancelled" else self.answer(failure[1])

    def is_of_kind(self, level, failure, failures):
        answer, cancelled = self.failed_answer(failure), failure[2] == "cancelled"
        if level == 1:
            return answer is not None and answer.host == 0 and answer.status == 2 and not is_valid_sense(answer.sense)
        if level == 2:
            return cancelled and self.host.noasync
        if level == 3:
            asks = answer is not None and is_valid_sense(answer.sense) and sense_says(answer.sense) == "fail"
            return asks and not any(f[2] == "cancelled" and self.dev(f[0]) == self.dev(failure[0]) for f in failures)
        return True

    def pairs(self):
        commands = [c for c, _, _ in self.failed]
        devs = sorted({self.dev(c) for c in commands})
        listed = [(level, c) for level in (1, 2) for c in commands]
        listed += [(level, d) for level in (3, 4) for d in devs]
        listed += [(5, t) for t in sorted({d[:2] for d in devs})] + [(6, b) for b in sorted({d[:1] for d in devs})]
        return listed + [(7, ())] + [(8, d) for d in devs]

    def in_scope(self, level, scope, c):
        return c == scope if level in (1, 2) else self.dev(c)[: len(scope)] == scope

    def next_act(self):
        listed, todo = self.pairs(), self.todo()
        if self.last_act is not None:
            listed = listed[listed.index(self.last_act) + 1 :] if self.last_act in listed else []
        for level, scope in listed:
            if any(self.in_scope(level, scope, f[0]) and self.is_of_kind(level, f, todo) for f in todo):
                return level, scope
        return None

    def flushed(self):
        """The failed command that the flush comes to."""
        return self.failed[0][0] if self.begun and not self.todo() and self.failed else None

    def is_saved(self, c):
        return self.attempts[self.stands[c].attempt].judgement != "success" and self.may_retry(c)

    def verdict(self, c):
        """What c is told by what its last entry says."""
        last, n = self.stands[c].last, self.stands[c].attempt
        if last in (None, "took", "bounced", "again"):
            return NO_CONNECT
        if last == "judged":
            return self.answer(n)
        if last == "aborted":
            return TIME_OUT
        if last == "cleared":
            return TIME_OUT if self.owner(n) == "expiry" else self.answer(n)
        return None

    # what an entry changes

    def enter(self, entry):
        kind = entry[0]
        if kind in OF_COMMAND:
            c = entry[1]
            if kind == "told":
                self.tell(c, entry[2])
            self.stands[c].last = kind
        getattr(self, f"enter_{kind}", lambda *_: None)(*entry[1:])
        self.newest = entry

    def tell(self, c, answer):
        stand = self.stands[c]
        if stand.last == "judged" or (stand.last == "cleared" and self.owner(stand.attempt) == "answer"):
            ended = "answered"
        else:
            ended = "timeout" if stand.last in ("aborted", "cleared") else "noconnect"
        if stand.report is None:
            stand.report = (ended, answer)
        stand.at = "ended"
        self.failed = [f for f in self.failed if f[0] != c]

    def enter_took(self, c):
        self.stands[c].at = "waits"
        self.taken.append(c)

    def enter_sent(self, c, n, tag):
        self.stands[c].at, self.stands[c].attempt = "busy", n
        self.attempts[n] = Attempt(c, tag, self.ticks)

    def enter_bounced(self, c, n, why):
        self.stands[c].at, self.attempts[n].is_open = "waits", False
        if why == "host":
            self.host_paused = True
        else:
            self.paused.add(self.dev(c))

    def enter_ready(self, n, answer):
        if self.is_open(n) and not self.attempts[n].answered:
            self.attempts[n].answered, self.attempts[n].answer = True, answer
        else:
            self.late[n] = self.late.get(n, 0) + 1

    def enter_due(self, n):
        self.attempts[n].is_due = True

    def enter_longer(self, n):
        self.attempts[n].longers += 1

    def enter_timerdone(self, n):
        self.attempts[n].said_done = True

    def enter_owned(self, n, by):
        a = self.attempts[n]
        a.is_open, a.owner = False, by
        if by == "expiry" and a.answer is not None:
            self.late[n] = self.late.get(n, 0) + 1

    def enter_late(self, n):
        self.late[n] -= 1

    def enter_judged(self, c, n, said):
        a, dev = self.attempts[n], self.dev(c)
        a.settled, a.judgement = True, said
        depth, goods = self.depths[dev]
        if a.answer.host == 0 and a.answer.status == 0x28:
            less = max(1, min(depth, self.busy_on(dev) - 1))
            if less != depth:
                self.depths[dev] = (less, 0)
        elif is_good(a.answer) and depth != self.most[dev]:
            self.depths[dev] = (depth + 1, 0) if goods == 3 else (depth, goods + 1)

    def enter_abortset(self, c, n):
        self.attempts[n].settled, self.stands[c].aborted = True, True
        self.aborts.append(n)

    def enter_aborted(self, c, n, ok):
        self.aborts = [m for m in self.aborts if m != n]

    def enter_failed(self, c, n, how):
        self.attempts[n].settled, self.recovering = True, True
        self.failed.append((c, n, how))

    def enter_cleared(self, c, level):
        self.cleared.add(c)

    def enter_sensed(self, c, n, sense):
        self.attempts[n].answer = self.attempts[n].answer._replace(sense=sense)

    def enter_again(self, c, counted):
        self.stands[c].at = "waits"
        self.failed = [f for f in self.failed if f[0] != c]
        if counted == "counted":
            self.stands[c].retries += 1
        else:
            self.paused.add(self.dev(c))

    def enter_ehbegin(self):
        self.begun, self.cleared, self.last_act = True, set(), None

    def enter_ehend(self):
        self.begun, self.recovering = False, False

    def enter_act(self, level, scope, ok):
        self.last_act = (level, scope)

    def enter_offline(self, dev):
        self.states[dev] = "offline"

    def enter_state(self, dev, state):
        self.states[dev] = state

    def enter_tick(self):
        self.ticks, self.host_paused, self.paused = self.ticks + 1, False, set()

    # which entry may stand where nothing is owed

    def allows(self, entry):
        rule = getattr(self, f"allows_{entry[0]}", None)
        try:
            return rule is not None and rule(*entry[1:])
        except KeyError:
            return False

    def is_next_of_lane(self, c):
        return self.next_of_lane(self.commands[c].lane) is self.commands[c]

    def allows_took(self, c):
        return self.is_next_of_lane(c) and self.states[self.dev(c)] not in ("cancel", "del")

    def allows_sent(self, c, n, tag):
        may = not self.recovering and self.pick() == c and self.is_online(self.dev(c))
        return may and n == len(self.attempts) + 1 and tag == self.least_free()

    def allows_bounced(self, c, n, why):
        return self.newest is not None and self.newest[:3] == ("sent", c, n)

    def allows_ready(self, n, answer):
        return True

    def allows_due(self, n):
        return self.may_ask() == n

    allows_longer = allows_timerdone = allows_due

    def allows_owned(self, n, by):
        a = self.attempts[n]
        return a.is_open and (a.answered if by == "answer" else a.is_due)

    def allows_late(self, n):
        return self.late.get(n, 0) > 0

    def allows_judged(self, c, n, said):
        a = self.attempts[n]
        may = not self.begun and a.owner == "answer" and not a.settled and a.command == c
        return may and said == self.disposition(c, a.answer)

    def to_abort(self, c, n):
        a = self.attempts[n]
        return a.owner == "expiry" and not a.settled and a.command == c

    def allows_abortset(self, c, n):
        return self.to_abort(c, n) and self.has_abort_left(c)

    def allows_failed(self, c, n, how):
        return how == "cancelled" and self.to_abort(c, n) and not self.has_abort_left(c)

    def allows_aborted(self, c, n, ok):
        first = self.aborts[:1] == [n] and self.attempts[n].command == c
        return first and (ok == "failed" or "a" in self.host.handlers)

    def allows_again(self, c, counted):
        return counted == "counted" and self.flushed() == c and self.is_saved(c)

    def allows_told(self, c, answer):
        if self.is_next_of_lane(c) and self.states[self.dev(c)] in ("cancel", "del"):
            return answer == NO_CONNECT
        if not self.recovering and self.pick() == c and not self.is_online(self.dev(c)):
            return answer == NO_CONNECT
        return self.flushed() == c and not self.is_saved(c) and answer == self.verdict(c)

    def allows_ehbegin(self):
        return self.is_quiet() and not self.begun and bool(self.failed)

    def allows_act(self, level, scope, ok):
        may = CALLBACKS.get(level, "") in self.host.handlers if ok == "ok" else level != 8
        return self.begun and self.is_quiet() and may and self.next_act() == (level, scope)

    def allows_ehend(self):
        return self.begun and not self.failed

    def allows_state(self, dev, state):
        return not self.begun and self.states[dev] in BECOMES[state]

    def allows_tick(self):
        claimed = any(a.is_open and (a.answered or a.is_due) for a in self.attempts.values())
        return not claimed and not any(self.late.values()) and self.may_ask() is None


OF_COMMAND = ("took", "sent", "bounced", "judged", "abortset", "aborted", "failed", "cleared", "sensed", "again", "told")


# ---- the first reading: what is owed after each entry

Exactly = namedtuple("Exactly", "entry")
AnyProbe = namedtuple("AnyProbe", "dev code good")
AnySense = namedtuple("AnySense", "command attempt")


def is_owed(owed, entry):
    if isinstance(owed, Exactly):
        return entry == owed.entry
    if isinstance(owed, AnyProbe):
        right = entry[0] == "probe" and entry[1:3] == (owed.dev, owed.code)
        return right and owed.good in (None, is_good(entry[3]))
    return entry[0] == "sensed" and entry[1:3] == (owed.command, owed.attempt) and is_valid_sense(entry[3])


def is_doubtful(answer):
    """A first TEST UNIT READY that is made again."""
    return answer is not None and not is_good(answer) and answer_says(answer) == "retry"


def owed_tests(journal, level, failures):
    ready = []
    for dev in sorted({journal.dev(f[0]) for f in failures}):
        said = (yield AnyProbe(dev, 0x00, None))[3]
        if is_doubtful(said):
            said = (yield AnyProbe(dev, 0x00, None))[3]
        if is_good(said):
            ready.append(dev)
    for f in failures:
        if journal.dev(f[0]) in ready:
            yield Exactly(("cleared", f[0], level))


def owed_sense(journal, failure, ok):
    c, n, _ = failure
    yield AnyProbe(journal.dev(c), 0x03, True if ok else None)
    if ok:
        sense = (yield AnySense(c, n))[3]
        said = journal.disposition(c, journal.failed_answer(failure)._replace(sense=sense))
        yield Exactly(("judged", c, n, said))
        if said in ("success", "retry"):
            yield Exactly(("cleared", c, 1))


def owed_act(journal, level, scope, ok):
    failures = [f for f in journal.todo() if journal.in_scope(level, scope, f[0])]
    if level == 1:
        yield from owed_sense(journal, failures[0], ok)
    elif level == 3:
        yield AnyProbe(scope, 0x1B, ok)
        if ok:
            yield from owed_tests(journal, level, failures)
    elif level == 8:
        yield Exactly(("offline", scope))
        for f in failures:
            yield Exactly(("cleared", f[0], 8))
    elif ok:
        yield from owed_tests(journal, level, failures)


def owed_after(journal, entry):
    """What an entry makes owed, one after the other; each that is met is sent in."""
    kind = entry[0]
    if kind == "judged":
        _, c, n, said = entry
        yield Exactly({
            "success": ("told", c, journal.answer(n)),
            "retry": ("again", c, "counted"),
            "requeue": ("again", c, "free"),
            "fail": ("failed", c, n, "answered"),
        }[said])
    elif kind == "aborted":
        _, c, n, ok = entry
        if ok == "failed":
            yield Exactly(("failed", c, n, "cancelled"))
        else:
            yield Exactly(("again", c, "counted") if journal.may_retry(c) else ("told", c, TIME_OUT))
    elif kind == "ehbegin":
        for c, _, _ in list(journal.failed):
            if not journal.is_online(journal.dev(c)):
                yield Exactly(("cleared", c, 0))
    elif kind == "act":
        yield from owed_act(journal, entry[1], entry[2], entry[3] == "ok")


def advance(course, entry):
    try:
        return course.send(entry)
    except StopIteration:
        return None


def wrong_by_places(host, entries):
    """The place of the first entry that may not stand, their number where something is owed at the end, or None."""
    journal, course, owed = Journal(host), None, None
    for place, entry in enumerate(entries):
        if owed is not None:
            if not is_owed(owed, entry):
                return place
            owed = advance(course, entry)
        elif journal.allows(entry):
            course = owed_after(journal, entry)
            owed = advance(course, None)
        else:
            return place
        journal.enter(entry)
    return None if owed is None else len(entries)


# ---- the second reading: an entry with all that follows it at once


class Behind:
    """What stands behind a group's first entry, from which the answers that are free are taken."""

    def __init__(self, entries):
        self.entries, self.group = entries, []

    def add(self, *entries):
        self.group += entries

    def take(self, suits):
        """The entry at the next place, where it suits; else none ever stands there."""
        place = len(self.group)
        entry = self.entries[place] if place < len(self.entries) else None
        self.group.append(entry if entry is not None and suits(entry) else None)
        return self.group[-1]

    def probe(self, dev, code, want=None):
        said = self.take(lambda e: e[:3] == ("probe", dev, code) and (want is None or is_good(e[3]) == want))
        return said[3] if said is not None else None

    def cleared(self, failures, level):
        self.add(*(("cleared", f[0], level) for f in failures))

    def tested(self, journal, failures, level):
        ready = set()
        for dev in sorted({journal.dev(f[0]) for f in failures}):
            answer = self.probe(dev, 0)
            if answer is not None and answer_says(answer) == "retry":
                answer = self.probe(dev, 0)
            ready |= {dev} if is_good(answer) else set()
        self.cleared([f for f in failures if journal.dev(f[0]) in ready], level)

    def sensed(self, journal, failure, ok):
        c, n, _ = failure
        self.probe(journal.dev(c), 3, True if ok else None)
        if not ok:
            return
        fetched = self.take(lambda e: e[:3] == ("sensed", c, n) and is_valid_sense(e[3]))
        answer = journal.failed_answer(failure)
        if fetched is None or answer is None:
            return
        said = journal.disposition(c, answer._replace(sense=fetched[3]))
        self.add(("judged", c, n, said))
        if said not in ("fail", "requeue"):
            self.add(("cleared", c, 1))


def behind_judged(behind, journal, c, n, said):
    if said == "fail":
        behind.add(("failed", c, n, "answered"))
    elif said == "success":
        behind.add(("told", c, journal.answer(n)))
    else:
        behind.add(("again", c, "counted" if said == "retry" else "free"))


def behind_aborted(behind, journal, c, n, ok):
    if ok != "ok":
        behind.add(("failed", c, n, "cancelled"))
    elif journal.may_retry(c):
        behind.add(("again", c, "counted"))
    else:
        behind.add(("told", c, TIME_OUT))


def behind_act(behind, journal, level, scope, ok):
    failures = [f for f in journal.todo() if journal.in_scope(level, scope, f[0])]
    if level == 1:
        behind.sensed(journal, failures[0], ok == "ok")
    elif level == 8:
        behind.add(("offline", scope))
        behind.cleared(failures, 8)
    else:
        if level == 3:
            behind.probe(scope, 0x1B, ok == "ok")
        if ok == "ok":
            behind.tested(journal, failures, level)


def group_behind(journal, entry, entries):
    """All that follows an entry at once, with the free answers of these entries."""
    behind = Behind(entries)
    if entry[0] == "judged":
        behind_judged(behind, journal, *entry[1:])
    elif entry[0] == "aborted":
        behind_aborted(behind, journal, *entry[1:])
    elif entry[0] == "act":
        behind_act(behind, journal, *entry[1:])
    elif entry[0] == "ehbegin":
        behind.cleared([f for f in journal.failed if not journal.is_online(journal.dev(f[0]))], 0)
    return behind.group


def wrong_by_groups(host, entries):
    """As `wrong_by_places`."""
    journal, place = Journal(host), 0
    while place < len(entries):
        if not journal.allows(entries[place]):
            return place
        group = group_behind(journal, entries[place], entries[place + 1 : place + 1030])
        journal.enter(entries[place])
        place += 1
        for owed in group:
            if place == len(entries) or entries[place] != owed:
                return place
            journal.enter(owed)
            place += 1
    return None


# ---- steps: what bars one, and which entries one opens


def refused(journal, c):
    return journal.is_next_of_lane(c) and journal.states[journal.dev(c)] in ("cancel", "del")


def first_of(*conditions):
    return next((why for bars, why in conditions if bars), None)


def answer_waits(journal):
    return any(a.is_open and a.answered for a in journal.attempts.values()) or any(journal.late.values())


def expiry_waits(journal):
    return any(a.is_open and a.is_due for a in journal.attempts.values()) or journal.may_ask() is not None


def barred(journal, words):
    """The first condition that bars a step, as far as the journal says it: not whether an answer is due."""
    kind, rest = words[0], words[1:]
    if kind == "submit":
        return first_of((journal.next_of_lane(int(rest[0])) is None, "lanedone"))
    if kind == "send":
        return first_of((journal.recovering, "recovery"), (journal.pick() is None, "nosend"))
    if kind == "due":
        return first_of((journal.may_ask() is None, "nodue"))
    if kind == "own":
        a = journal.attempts.get(int(rest[0]))
        if a is None or not a.is_open:
            return "notopen"
        return first_of((rest[1] == "answer" and not a.answered, "notready"), (rest[1] == "expiry" and not a.is_due, "notdue"))
    if kind == "settle":
        return first_of((not journal.to_settle(int(rest[0])), "notowned"))
    if kind == "drop":
        return first_of((journal.late.get(int(rest[0]), 0) == 0, "notlate"))
    if kind == "abort":
        return first_of((not journal.aborts, "noabort"))
    if kind == "eh":
        return recovery_barred(journal, rest[0])
    if kind == "tick":
        return first_of((answer_waits(journal), "answerwaiting"), (expiry_waits(journal), "expirywaiting"))
    if kind == "state":
        may = journal.states[address(rest[0])] in BECOMES[rest[1]]
        return first_of((journal.begun, "ehrunning"), (not may, "illegal"))
    return None


def recovery_barred(journal, step):
    if step == "begin":
        return first_of((journal.begun, "ehrunning"), (not journal.failed, "nofailed"), (not journal.is_quiet(), "notquiet"))
    last = {
        "act": [(not journal.todo(), "ladderdone")],
        "flush": [(bool(journal.todo()), "ladderopen"), (not journal.failed, "flushdone")],
        "end": [(bool(journal.todo()), "ladderopen"), (bool(journal.failed), "flushleft")],
    }
    return first_of((not journal.begun, "ehidle"), *last[step])


OPENERS = {
    "work": ("ready",),
    "due": ("due", "longer", "timerdone"),
    "abort": ("aborted",),
    "tick": ("tick",),
    "begin": ("ehbegin",),
    "act": ("act",),
    "end": ("ehend",),
}


def opens(journal, words, entry):
    """Whether an entry that is allowed is one which a step begins with."""
    kind, rest, (word, *parts) = words[-1] if words[0] == "eh" else words[0], words[1:], entry
    if kind in OPENERS:
        return word in OPENERS[kind]
    if kind == "submit":
        handed = word == "took" or (word == "told" and refused(journal, parts[0]))
        return handed and journal.commands[parts[0]].lane == int(rest[0])
    if kind == "send":
        return word == "sent" or (word == "told" and not refused(journal, parts[0]) and journal.flushed() != parts[0])
    if kind == "own":
        return entry == ("owned", int(rest[0]), rest[1])
    if kind == "settle":
        return word in ("judged", "abortset", "failed") and parts[1] == int(rest[0])
    if kind == "drop":
        return entry == ("late", int(rest[0]))
    if kind == "flush":
        return word in ("again", "told") and journal.flushed() == parts[0]
    return entry == ("state", address(rest[0]), rest[1])


class Made:
    """A journal that is read step by step."""

    def __init__(self, host, entries):
        self.journal, self.entries, self.place = Journal(host), entries, 0

    def take(self):
        self.journal.enter(self.entries[self.place])
        self.place += 1

    def make(self, words):
        """The entries of a step; whether they are."""
        if self.place == len(self.entries) or not opens(self.journal, words, self.entries[self.place]):
            return False
        entry = self.entries[self.place]
        group = group_behind(self.journal, entry, self.entries[self.place + 1 : self.place + 1030])
        for _ in range(1 + len(group)):
            self.take()
        if entry[0] == "sent" and self.place < len(self.entries) and self.entries[self.place][0] == "bounced":
            self.take()
        return True


def judge_steps(script, printed):
    """Each step line adds its entries, or is skipped with what bars it; lower layers alone say whether an answer is due."""
    made = {number: Made(host, [e for _, _, e in printed.journals[number]]) for number, host in script.hosts.items()}
    for line, number, words in script.steps:
        host, said = made[number], printed.skips.get(line)
        bars = barred(host.journal, words)
        if said is None:
            if bars is not None or not host.make(words):
                raise Wrong(f"step line {line} isn't made: {bars}")
        elif said != {"work": "nowork"}.get(words[0], bars) and (words[0], said) != ("tick", "workdue"):
            raise Wrong(f"step line {line} is skipped with {said}, and {bars} bars it")
    if set(printed.skips) - {line for line, _, _ in script.steps}:
        raise Wrong("a line is skipped that is no step line")
    if not script.drains and any(host.place < len(host.entries) for host in made.values()):
        raise Wrong("there are entries that no step line made")


# ---- the whole text


def result_words(stand, c):
    if stand.report is None:
        return [str(c), "open", str(stand.retries)]
    ended, a = stand.report
    return [str(c), ended, f"{a.host:02x}", f"{a.status:02x}", str(a.moved), str(a.sum), a.sense.hex() or "-", str(stand.retries)]


def judge_host(host, lines, results):
    entries, ticks = [entry for _, _, entry in lines], 0
    wrong = wrong_by_places(host, entries)
    if wrong != wrong_by_groups(host, entries):
        raise Wrong(f"host {host.number}: the readings differ")
    if wrong is not None:
        where = f"line {lines[wrong][0]}" if wrong < len(lines) else "the end"
        raise Wrong(f"host {host.number}: {where} of the text may not stand")
    journal = Journal(host)
    for number, tick, entry in lines:
        if tick != journal.ticks:
            raise Wrong(f"line {number} of the text has a wrong tick")
        journal.enter(entry)
    if results != [result_words(journal.stands[c], c) for c in sorted(journal.stands)]:
        raise Wrong(f"host {host.number}: wrong results")
    return journal


def is_drained(journal):
    return all(stand.at == "ended" for stand in journal.stands.values())


def judge(script, printed, drained=True):
    """Raises Wrong where something doesn't stand. `drained` says that a script which drains its hosts has to have done so."""
    if list(printed.journals) != sorted(script.hosts):
        raise Wrong("not the hosts of the script")
    for number, host in script.hosts.items():
        journal = judge_host(host, printed.journals[number], printed.results[number])
        if script.drains and drained and not is_drained(journal):
            raise Wrong(f"host {number} isn't drained")
    judge_steps(script, printed)


def main(words):
    if len(words) not in (1, 2) or words[0].startswith("-"):
        print(__doc__, file=sys.stderr)
        return 2
    with open(words[0]) as lines:
        script = read_script(lines)
    try:
        with open(words[1]) if len(words) == 2 else sys.stdin as lines:
            judge(script, read_text(lines))
    except Wrong as wrong:
        print(wrong)
        return 1
    return 0


if __name__ == "__main__":
    sys.exit(main(sys.argv[1:]))

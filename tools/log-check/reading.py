#!/usr/bin/env python3
"""A second reading of what vmlog does, which shares no code with it: a host log on standard input, a configuration on standard output.

    reading.py [--every N]

Policies, samples and what a domain uses are those of ../steer-check/reading.py.
"""
import importlib.util
import os
import sys
from pathlib import Path

MOST_EPOCHS, MOST_GUESTS, MOST_STEPS, MOST_EPOCH_STEPS, MOST_BYTES = 10000, 256, 1000000, 65536, 16777216


def beside(name):
    """A module of steer-check."""
    path = Path(__file__).resolve().parent.parent / "steer-check" / f"{name}.py"
    spec = importlib.util.spec_from_file_location(f"steer_check_{name}", path)
    module = importlib.util.module_from_spec(spec)
    spec.loader.exec_module(module)
    return module


steer = beside("reading")


class Limit(Exception):
    """What would be passed."""


# ---- guests

class Guest:
    """A domain that was steered. Epochs that are over stand in `steps`; what was seen in the one that isn't is `use`."""

    def __init__(self, first):
        self.first, self.size = first, 0
        self.steps, self.length, self.longest, self.written = 0, 0, 0, []
        self.last_use, self.last = 0, first - 1
        self.use = None

    def see(self, epoch, size, use):
        self.seen_size = max(self.seen_size if self.use is not None else self.size, size)
        self.use = max(self.use or 0, use)
        here = max(self.last_use, self.use) + 1
        away = epoch - self.last - 1
        if self.steps + away + here > MOST_STEPS:
            return "1000000 steps"
        if here > MOST_EPOCH_STEPS:
            return "65536 steps in an epoch"
        return None

    def end_epoch(self, epoch):
        if self.use is None:
            return
        away, use = epoch - self.last - 1, self.use
        here = ["y"] * away
        if use < self.last_use:
            here.append(f"f {use} {self.last_use - use}")
        if use > 0:
            here.append(f"t 0 {use}")
        here.append("y")
        self.steps += away + max(self.last_use, use) + 1
        self.longest = max(self.longest, 1 if away else 0, max(self.last_use, use) + 1)
        self.written.append(",".join(f'"{step}"' for step in here))
        self.length += len(self.written[-1]) + 1
        self.size, self.last_use, self.last, self.use = self.seen_size, use, epoch, None


def bounds(policy, name, size):
    """(min, cap, shares) of the policy for a domain of that size."""
    least, most, shares, _ = policy.guests.get(name, (None, None, 1000, True))
    cap = size if most is None else min(most, size)
    if least is None:
        lowest = max(1, min(steer.up(size * (100 - policy.most), 100), cap))
    else:
        lowest = max(1, min(least, size))
    return lowest, max(cap, lowest), shares


# ---- the host

class Log:
    """All that was taken."""

    def __init__(self, policy, every):
        self.policy, self.every = policy, every
        self.watch = steer.Host(policy)
        self.samples = self.bad = self.epochs = 0
        self.guests, self.left, self.new_left = {}, {}, {}

    def looked(self, found):
        """Each domain of a good sample: (name, row or None, what it holds)."""
        found = sorted(found, key=lambda domain: domain[0])
        names = [name for name, _ in found]
        twice = {a for a, b in zip(names, names[1:]) if a == b}
        told = []
        for name, numbers in found:
            row = None
            if self.watch.why_left(name, numbers, twice) is None:
                row = self.watch.row(name, numbers)
            told.append((name, row, min(steer.up(numbers[steer.CURRENT] or 0, self.policy.unit), steer.MOST_SIZE)))
        present = set(names)
        self.watch.known = {name: known for name, known in self.watch.known.items() if name in present}
        for name, row, _ in told:
            if row is not None:
                self.watch.known[name] = steer.Remembered(row)
        return told

    def take(self, found):
        told = self.looked(found)
        epoch = self.samples // self.every
        passed = set()
        if epoch == MOST_EPOCHS:
            passed.add("10000 epochs")
        for name, row, held in told:
            if row is None:
                self.new_left[name] = max(self.new_left.get(name, 0), held)
                continue
            if name not in self.guests:
                self.guests[name] = Guest(epoch)
            passed.add(self.guests[name].see(epoch, row.size, row.used))
        if len(self.guests) > MOST_GUESTS:
            passed.add("256 guests")
        for limit in ["10000 epochs", "256 guests", "1000000 steps", "65536 steps in an epoch"]:
            if limit in passed:
                raise Limit(limit)
        self.samples += 1
        if self.samples % self.every == 0:
            self.end_epoch()

    def end_epoch(self):
        """The epoch that was begun, if one was, is over: it is in the text, or what is known is as it was before."""
        if self.samples <= self.epochs * self.every:
            return
        before = Kept(self)
        for guest in self.guests.values():
            guest.end_epoch(self.epochs)
        for name, held in self.new_left.items():
            self.left[name] = max(self.left.get(name, 0), held)
        self.new_left = {}
        self.epochs += 1
        if self.may_be_long() and len(self.text()) > MOST_BYTES:
            before.restore(self)
            raise Limit("16777216 bytes")

    def may_be_long(self):
        return sum(guest.length for guest in self.guests.values()) + 1024 * (len(self.guests) + 1) > MOST_BYTES

    def forget_epoch(self):
        """What was seen of an epoch that isn't over."""
        self.new_left = {}
        self.guests = {name: guest for name, guest in self.guests.items() if guest.last >= guest.first}

    # -- the text

    def frames(self):
        beside_them = sum(held for name, held in self.left.items() if name not in self.guests)
        return max(1, self.policy.frames - beside_them)

    def text(self):
        policy, unit = self.policy, self.policy.unit
        guests = sorted(self.guests.items())
        quantum = max([1] + [guest.longest for _, guest in guests])
        told, swap, comes, goes = [], 0, {}, {}
        for number, (name, guest) in enumerate(guests):
            shown = name.decode()
            least, cap, shares = bounds(policy, name, guest.size)
            swap += guest.size - least
            starts = "true" if guest.first == 0 else "false"
            told.append(f'{{"name":"{shown}","size":{guest.size},"min":{least},"shares":{shares},"period":{quantum},"rate":256,"seed":{number},'
                        f'"autostart":{starts},"tell":false,"trace":[{",".join(guest.written)}]}}')
            lines = comes.setdefault(guest.first, [])
            if guest.first > 0:
                lines.append(f"start {shown}")
            if cap < guest.size:
                lines.append(f"setmem {shown} {cap * unit}")
            goes.setdefault(guest.last + 1, []).append(f"destroy {shown}")
        commands = [f'{{"at":{at},"line":"{line}"}}' for at in sorted({*comes, *goes}) if at < self.epochs
                    for line in goes.get(at, []) + comes.get(at, [])]
        percent = ",".join(str(part) for part in policy.percent)
        return (f'{{"version":3,"frames":{self.frames()},"swap":{swap},"overhead":{policy.overhead},"tax":{policy.tax},"percent":[{percent}],'
                f'"page_rate":{min(policy.rate, 256)},"rebalance":{policy.rebalance},"page":{unit},"quantum":{quantum},"epochs":{self.epochs},'
                f'"guests":[{",".join(told)}],"commands":[{",".join(commands)}]}}\n')


class Kept:
    """What an epoch changes when it is over, as it was before."""

    def __init__(self, log):
        self.guests = {name: dict(vars(guest), written=len(guest.written)) for name, guest in log.guests.items() if guest.last >= guest.first}
        self.left, self.epochs = dict(log.left), log.epochs

    def restore(self, log):
        log.left, log.epochs = self.left, self.epochs
        log.guests = {name: log.guests[name] for name in self.guests}
        for name, guest in log.guests.items():
            written = guest.written[:self.guests[name]["written"]]
            vars(guest).update(self.guests[name], written=written, use=None)


# ---- the program

def take_all(log, stream):
    """All samples; what ended it, if a limit did."""
    try:
        for lines, ended in stream:
            if not ended:
                break
            try:
                found = steer.domains_of(lines)
            except steer.Bad:
                log.bad += 1
                continue
            log.take(found)
        log.end_epoch()
    except Limit as limit:
        log.forget_epoch()
        return limit
    return None


def run(every):
    stream = steer.sections()
    lines, ended = next(stream)
    try:
        policy = steer.Policy(b"".join(line + b"\n" for line in lines[:-1]) + (lines[-1] + b"\n" if ended else lines[-1]) if lines else b"")
    except steer.Fault as fault:
        raise steer.Stop(1, str(fault)) from None
    log = Log(policy, every)
    limit = take_all(log, stream)
    steer.write(log.text())
    if limit is not None:
        print(f"vmlog: ends after {log.epochs} epochs: no more than {limit}", file=sys.stderr)
    if log.bad > 0:
        print(f"vmlog: {log.bad} bad samples", file=sys.stderr)


def every_of(words):
    if not words:
        return 1
    if len(words) == 1 and words[0].startswith("--every="):
        words = words[0].split("=", 1)
    if len(words) == 2 and words[0] == "--every" and words[1].isascii() and words[1].isdigit() and 1 <= int(words[1]) <= 10000:
        return int(words[1])
    return None


def main():
    every = every_of(sys.argv[1:])
    if every is None:
        print("usage: vmlog [--every N]", file=sys.stderr)
        return 2
    try:
        run(every)
    except steer.Stop as stop:
        print(f"vmlog: {stop.words}", file=sys.stderr)
        return stop.status
    return 0


if __name__ == "__main__":
    sys.exit(main())

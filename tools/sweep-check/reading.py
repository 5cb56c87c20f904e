#!/usr/bin/env python3
"""A second reading of what vmsweep writes, which shares no code with it: the table of a configuration text, by the reports of a vmmem.

    reading.py VMMEM [WORDS..] < TEXT

WORDS are those of vmsweep; with --svg the table is that of which drawing.py makes the drawing. --jobs N at their end makes records by N
processes. A value that the reports of vmmem leave open is written as LEAST to GREATEST, or as THIS or THAT; `runs.py` says which these are.
It knows --min-percent, --min, --shares and --seeds too.
"""
import json
import multiprocessing
import re
import sys
from pathlib import Path

sys.path.insert(0, str(Path(__file__).resolve().parent))
import runs  # noqa: E402

MOST = 10000
NUMBER = r"[0-9]{1,10}"
PERCENT = r"[0-9]{1,10}(?:\.[0-9]{1,2})?"


class Refused(Exception):
    """With a status and what is said; None where only that something is."""

    def __init__(self, status, said):
        super().__init__(said)
        self.status, self.said = status, said


# ---- lists

class List:
    """The values of a LIST, which may be many: items are ranges of Python."""

    def __init__(self, items):
        self.items = items

    def __len__(self):
        return sum(len(item) for item in self.items)

    def values(self):
        return [value for item in self.items for value in item]


class Kind:
    """What values a word has."""

    def __init__(self, key, least, most, is_percent=False):
        self.key, self.least, self.most, self.is_percent = key, least, most, is_percent

    def number(self, text):
        """A tax in hundredths, all else as it is."""
        if not self.is_percent:
            return int(text)
        whole, _, part = text.partition(".")
        return int(whole) * 100 + int(part.ljust(2, "0"))

    def written(self, value):
        if not self.is_percent:
            return str(value)
        return f"{value // 100}.{value % 100:02}".rstrip("0").rstrip(".")

    def read(self, text, begin=0):
        """The values of a LIST that begins at that byte of its word's value."""
        items, at = [], begin
        for item in text.split(","):
            items.append(self.item(item, at))
            at += len(item.encode("utf-8", "surrogateescape")) + 1
        return List(items)

    def item(self, text, at):
        form = PERCENT if self.is_percent else NUMBER
        match = re.fullmatch(rf"({form})(?:\.\.({form})(?:/({form}))?)?", text, re.A)
        if match is None:
            raise self.refused(at, "not a list of numbers and ranges")
        for group in 1, 2:
            if match[group] is not None and not self.least <= self.number(match[group]) <= self.most:
                raise self.refused(at + match.start(group), f"outside its range of {self.written(self.least)} to {self.written(self.most)}")
        first = self.number(match[1])
        if match[2] is None:
            return range(first, first + 1)
        if self.number(match[2]) < first:
            raise self.refused(at + match.start(2), "the range ends below its beginning")
        step = (100 if self.is_percent else 1) if match[3] is None else self.number(match[3])
        if step == 0:
            raise self.refused(at + match.start(3), "the step is 0")
        return range(first, self.number(match[2]) + 1, step)

    def refused(self, at, what):
        return Refused(2, f"vmsweep: --{self.key}: at byte {at}: {what}\n")


FRAMES, SWAP, TAX, PAGE_RATE = Kind("frames", 1, 262144), Kind("swap", 0, 67108864), Kind("tax", 0, 9999, True), Kind("page-rate", 1, 256)
REBALANCE, MIN_PERCENT = Kind("rebalance", 0, 262144), Kind("min-percent", 1, 100)
MIN, SHARES = Kind("min", 1, 262144), Kind("shares", 1, 1000000)
PLAIN = [FRAMES, SWAP, TAX, PAGE_RATE, REBALANCE, MIN_PERCENT]
FLAGS = ["guests", "svg", "progress"]


# ---- words

class Words:
    """What words ask for."""

    def __init__(self, words, has_guests=True):
        """`has_guests` is whether there are the words that change guests."""
        self.has_guests = has_guests
        given = self.split(words)
        self.guests, self.svg, self.progress = "guests" in given, "svg" in given, "progress" in given
        if self.guests and self.svg:
            raise Refused(2, None)
        self.workers = self.small(given.get("workers", ["1"])[0], 64)
        self.seeds = self.small(given["seeds"][0], 1000) if "seeds" in given else None
        self.lists = {kind.key: kind.read(given[kind.key][0]) for kind in PLAIN if kind.key in given}
        self.mins, self.shares = self.of_guests(MIN, given.get("min", [])), self.of_guests(SHARES, given.get("shares", []))
        for key, named in ("min", self.mins), ("shares", self.shares):
            for place, (name, _) in enumerate(named):
                if re.fullmatch(r"[A-Za-z0-9_.][A-Za-z0-9_.-]{0,31}", name, re.A) is None:
                    raise Refused(2, f"vmsweep: --{key} {name}: no name\n")
                if any(name == earlier for earlier, _ in named[:place]):
                    raise Refused(2, f"vmsweep: --{key} {name}: twice\n")
        if len(self.mins) + len(self.shares) > 8:
            raise Refused(2, "vmsweep: more than 8 lists of --min and --shares\n")
        if self.count() > MOST:
            raise Refused(2, f"vmsweep: more than 10000 {'runs' if self.seeds else 'combinations'}\n")
        if self.svg:
            self.check_drawing()

    def check_drawing(self):
        frames = self.lists["frames"].values() if "frames" in self.lists else []
        if len(frames) < 2:
            raise Refused(2, "vmsweep: --svg: fewer than two values of --frames\n")
        if any(less >= more for less, more in zip(frames, frames[1:])):
            raise Refused(2, "vmsweep: --svg: the values of --frames do not rise\n")
        if self.count() // (len(frames) * (self.seeds or 1)) > 12:
            what = "--swap, --tax, --page-rate and --rebalance" if "rebalance" in self.lists else "--swap, --tax and --page-rate"
            if self.changes_guests():
                what = "all loops but frames and seeds"
            raise Refused(2, f"vmsweep: --svg: more than 12 combinations of {what}\n")

    def split(self, words):
        """The values of each word that is given, as clap reads them."""
        single = [kind.key for kind in PLAIN[:5 + self.has_guests]] + ["workers"] + ["seeds"] * self.has_guests
        several = ["min", "shares"] if self.has_guests else []
        given, rest = {}, list(words)
        while rest:
            match = re.fullmatch(r"--([^=]+)(?:=(.*))?", rest.pop(0), re.S)
            if match is None or match[1] not in single + several + FLAGS or (match[1] in FLAGS and match[2] is not None):
                raise Refused(2, None)
            key, value = match[1], match[2]
            if key not in FLAGS and value is None:
                if not rest or rest[0].startswith("-") and rest[0] != "-":
                    raise Refused(2, None)
                value = rest.pop(0)
            if key in given and key not in several:
                raise Refused(2, None)
            given.setdefault(key, []).append(value)
        return given

    @staticmethod
    def small(text, most):
        if re.fullmatch(r"\+?[0-9]+", text, re.A) is None or not 1 <= int(text) <= most:
            raise Refused(2, None)
        return int(text)

    @staticmethod
    def of_guests(kind, values):
        found = []
        for value in values:
            name, equals, items = value.partition("=")
            if not equals:
                raise kind.refused(len(value.encode("utf-8", "surrogateescape")), "no = behind the name")
            found.append((name, kind.read(items, len((name + "=").encode("utf-8", "surrogateescape")))))
        return found

    def changes_guests(self):
        return bool(self.mins or self.shares or self.seeds or "min-percent" in self.lists)

    def loops(self):
        """Keys and values of the loops whose words are given, outermost first."""
        loops = [(kind.key, None, self.lists[kind.key]) for kind in PLAIN if kind.key in self.lists]
        loops += [("min", name, values) for name, values in self.mins] + [("shares", name, values) for name, values in self.shares]
        return loops + ([("seed", None, List([range(self.seeds)]))] if self.seeds else [])

    def count(self):
        count = 1
        for _, _, values in self.loops():
            count *= len(values)
        return count

    def combinations(self):
        """Each as a list of (key, name, value), in order."""
        found = [[]]
        for key, name, values in self.loops():
            found = [front + [(key, name, value)] for front in found for value in values.values()]
        return found


# ---- changed texts

OF_MACHINE = {"frames": "frames", "swap": "swap", "tax": "tax", "page-rate": "page_rate", "rebalance": "rebalance"}


def changed(text, combination):
    """A text of version 3 with the values of a combination."""
    text = {**text, "guests": [dict(guest) for guest in text["guests"]]}
    for key, name, value in combination:
        if key in OF_MACHINE:
            text[OF_MACHINE[key]] = value
        for guest in text["guests"]:
            if key == "min-percent":
                guest["min"] = -(-guest["size"] * value // 100)
            elif key == "seed":
                guest["seed"] = (guest["seed"] + value) % (1 << 64)
            elif key in ("min", "shares") and guest["name"] == name:
                guest[key] = value
    return text


def changed_itself(root, combination):
    """The text itself, in its own version, with the values of a combination; None where that version can't have them."""
    first = root["version"] == 1
    text = {**root, "guests": [dict(guest) for guest in root["guests"]]}
    for key, name, value in combination:
        if key == "rebalance" and root["version"] < 3 or first and (
                key == "tax" and value % 100 or key == "frames" and value > 65536 or key == "swap" and value > 4194304):
            return None
        if key in OF_MACHINE:
            text[OF_MACHINE[key]] = value // 100 if key == "tax" and first else value
        for guest in text["guests"]:
            if key == "min-percent":
                guest["min"] = (guest["size"] * value + 99) // 100
            elif key == "seed":
                guest["seed"] = guest.get("seed", 0) + value & (1 << 64) - 1
            elif key in ("min", "shares") and guest["name"] == name:
                guest[key] = value
    return text


# ---- records

SETTINGS = ["frames", "swap", "tax", "page_rate"]
OF_RUNS = ["high", "soft", "hard", "low", "least_free", "no_memory", "no_swap", "revoked", "paged", "evicted", "granted", "blocked", "stalls",
           "done", "left", "most_swapped", "swapped", "balloon", "fits", "worst"]
OF_GUESTS = ["guest", "epochs", "revoked", "paged", "evicted", "granted", "blocked", "stalls", "done", "left", "most_swapped", "target", "held",
             "swapped", "balloon"]


def header(words):
    fields = list(SETTINGS)
    for key, name, _ in words.loops():
        if key.replace("-", "_") not in SETTINGS:
            fields.append(key.replace("-", "_") + (f" {name}" if name is not None else ""))
    for field in OF_GUESTS if words.guests else OF_RUNS:
        fields.append(field)
        if field == "granted" and "rebalance" in words.lists:
            fields.append("rebalanced")
    return fields


def settings(text, combination):
    """The first fields of a record."""
    fields = [str(text["frames"]), str(text["swap"]), TAX.written(text["tax"]), str(text["page_rate"])]
    return fields + [str(value) for key, _, value in combination if key.replace("-", "_") not in SETTINGS]


def both(pairs):
    """The sum of pairs."""
    pairs = list(pairs)
    return sum(low for low, _ in pairs), sum(high for _, high in pairs)


def greatest(pairs):
    pairs = list(pairs) or [(0, 0)]
    return max(low for low, _ in pairs), max(high for _, high in pairs)


def worst(sent):
    """The first epoch with the most pages sent to swap, of a pair for each; a list where more than one may be it. Empty where none was sent."""
    least = max((low for low, _ in sent), default=0)
    found = [] if least else [""]
    for epoch, (_, high) in enumerate(sent):
        if high and all(high > low for low, _ in sent[:epoch]) and all(high >= low for low, _ in sent[epoch + 1:]):
            found.append(epoch)
    return found if len(found) > 1 else found[0]


def counted(run, word, guest=None):
    """What the lines of a report that begin with a word count; with revocations for lines of the boundary."""
    counts = [each for epoch in run.report.epochs for each in epoch.counts[word]]
    if word == "revoke":
        counts += [each for epoch in run.report.epochs for _, revoked, _ in epoch.lines for each in revoked]
    return sum(count for position, count in counts if guest in (None, position))


def common(run, guest=None):
    """The fields that both tables have, of a guest or of all."""
    told = run.report.epochs
    lives = [life for life in run.lives if guest in (None, life.guest)]
    fields = {"revoked": counted(run, "revoke", guest), "paged": counted(run, "page", guest), "granted": counted(run, "grant", guest)}
    fields["rebalanced"] = counted(run, "rebalance", guest)
    fields["evicted"] = both(sent for swaps in run.swaps for life, (_, sent) in swaps.items() if life in lives)
    fields["blocked"] = sum(guest in (None, position) for epoch in told for position in epoch.blocked)
    fields["stalls"] = sum(guest in (None, position) for epoch in told for position in epoch.stalled)
    fields["done"] = sum(life.after[max(life.after)]["done"] for life in lives if life.after)
    running = [life for position, life in run.running.items() if guest in (None, position)]
    fields["left"] = sum(len(life.steps) - run.report.stands[life.guest]["done"] for life in running)
    swapped = [both(first for life, (first, _) in swaps.items() if life in lives) for swaps in run.swaps]
    swapped += [both((life.after[epoch]["swapped"],) * 2 for life in lives if epoch in life.after) for epoch in range(len(told))]
    fields["most_swapped"] = greatest(swapped)
    for key in "swapped", "balloon":
        fields[key] = sum(run.report.stands[life.guest][key] for life in running)
    return fields


def of_run(run):
    fields = common(run)
    told = run.report.epochs
    for state in runs.STATES:
        fields[state] = sum(epoch.state == state for epoch in told)
    fields["least_free"] = min([epoch.free for epoch in told] + run.free + ([] if told else [run.text["frames"]]))
    answers = [answer[0].split(" ")[:2] for epoch in told for _, _, answer in epoch.lines]
    fields["no_memory"], fields["no_swap"] = answers.count(["error", "8"]), answers.count(["error", "9"])
    is_calm = not any(fields[key] for key in ("no_memory", "no_swap", "blocked", "stalls"))
    least, most = fields["most_swapped"]
    fields["worst"] = worst([both(sent for _, sent in swaps.values()) for swaps in run.swaps])
    fields["fits"] = "no" if not is_calm or least else "yes" if not most else "yes to no"
    return fields


def of_guest(run, guest):
    fields = common(run, guest)
    fields["guest"] = run.text["guests"][guest]["name"]
    fields["epochs"] = sum(life.runs_in(epoch) for life in run.lives if life.guest == guest for epoch in range(len(run.report.epochs)))
    if guest in run.report.stands:
        fields["target"], fields["held"] = run.report.stands[guest]["target"], run.report.stands[guest]["held"]
    else:
        fields.update(dict.fromkeys(["left", "target", "held", "swapped", "balloon"], ""))
    return fields


def field(value):
    """A field, or the two between which it is, or all that it may be."""
    if isinstance(value, list):
        return " or ".join(map(str, value))
    if isinstance(value, tuple):
        return str(value[0]) if value[0] == value[1] else f"{value[0]} to {value[1]}"
    return str(value)


def records(task):
    """The records of a combination, as lists of fields, and how often vmmem ran."""
    path, data, words, combination = task
    root = json.loads(data)
    text = changed(runs.third(root), combination)
    program = runs.Program(path)
    run = runs.Run(program, text)
    itself = changed_itself(root, combination)
    if itself is not None:
        status, output, said = program.answers(json.dumps(itself).encode())
        if (status, output.decode()) != (0, run.told):
            raise runs.Wrong(f"the text itself has another report, status {status}, {said!r}")
    found = [of_guest(run, guest) for guest in range(len(text["guests"]))] if words.guests else [of_run(run)]
    wanted = header(words)
    start = settings(text, combination)
    return [start + [field(fields[key]) for key in wanted[len(start):]] for fields in found], program.count


# ---- a call

def check_guests(words, text):
    """Refuses names that no guest has, and minimums above a size."""
    sizes = {guest["name"]: guest["size"] for guest in text["guests"]}
    for key, named in ("min", words.mins), ("shares", words.shares):
        for name, values in named:
            if name not in sizes:
                raise Refused(1, f"vmsweep: --{key} {name}: no such guest\n")
            if key == "min" and max(values.values()) > sizes[name]:
                raise Refused(1, f"vmsweep: --{key} {name}: above its size\n")


def progress(words):
    """What is said after each round."""
    most = words.count()
    return "".join(f"vmsweep: {min(done, most)} of {most}\n" for done in range(4 * words.workers, most + 4 * words.workers, 4 * words.workers))


def sweep(path, data, given, mapped=map, has_guests=True):
    """Status, table as a list of lists of fields, what is said (None: something), and how often vmmem ran."""
    try:
        words = Words(given, has_guests)
        status, _, _ = runs.Program(path).answers(data)
        if status:
            raise Refused(status, None)
        check_guests(words, json.loads(data))
    except Refused as refused:
        return refused.status, [], refused.said, 0
    table, count = [header(words)], 0
    for found, ran in mapped(records, [(path, data, words, combination) for combination in words.combinations()]):
        table += found
        count += ran
    return 0, table, progress(words) if words.progress else "", count


def main(words):
    if not words or words[0] in ("-h", "--help"):
        print(__doc__)
        return 0 if words else 2
    jobs = int(words[-1]) if words[-2:-1] == ["--jobs"] else 1
    words = words[:-2] if words[-2:-1] == ["--jobs"] else words
    with multiprocessing.Pool(jobs) as pool:
        status, table, said, _ = sweep(words[0], sys.stdin.buffer.read(), words[1:], pool.imap)
    sys.stdout.write("".join(",".join(fields) + "\r\n" for fields in table))
    sys.stderr.write("refused\n" if said is None else said)
    return status


if __name__ == "__main__":
    sys.exit(main(sys.argv[1:]))

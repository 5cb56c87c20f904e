#!/usr/bin/env python3
"""A second reading of what vmsteer does, which shares no code with it: a host log on standard input, what is decided on standard output.

    reading.py [--csv]

It has no --svg.
"""
import heapq
import json
import os
import re
import sys

MOST_BYTES, MOST_DOMAINS, MOST_UNITS, MOST_SIZE = 16777216, 256, 262144, 1 << 54
LOW, HARD, SOFT, HIGH = range(4)
STATES = ["low", "hard", "soft", "high"]
HEADER = "sample,state,free,domain,held,left,target,used,active,demand,min,cap,shares,order\r\n"


def up(a, b):
    return -(-a // b)


# ---- JSON as serde_json has it

class Number:
    def __init__(self, text):
        if text.strip("-0123456789") or len(text) > 300:
            if float(text) in (float("inf"), float("-inf")):
                raise ValueError("number out of range")
        self.text = text


def refuse(_):
    raise ValueError("no constant")


def check_depth(text):
    depth = 0
    for match in re.finditer(r'"(?:[^"\\]|\\.)*"|[\[\]{}]', text, re.S):
        mark = match[0]
        depth += (mark in "[{") - (mark in "]}")
        if depth >= 128:
            raise ValueError("too deep")


def check_texts(value):
    """What Python's reader takes and serde_json doesn't: half a surrogate pair."""
    if isinstance(value, str):
        value.encode()
    elif isinstance(value, list):
        for item in value:
            check_texts(item)


def object_of(pairs):
    for key, value in pairs:
        check_texts(key)
        check_texts(value)
    return dict(pairs)


def json_of(data):
    text = data.decode()
    check_depth(text)
    if re.match(r"[ \t\r\n]*[^ \t\r\n]", text) is None:
        raise ValueError("nothing")
    value = json.loads(text.strip(" \t\r\n"), parse_int=Number, parse_float=Number, parse_constant=refuse, object_pairs_hook=object_of)
    check_texts(value)
    return value


# ---- sizes

UNITS = {"": 1024, "k": 1024, "kib": 1024, "b": 1, "byte": 1, "bytes": 1, "kb": 1000, "m": 1 << 20, "mib": 1 << 20, "mb": 1000000,
         "g": 1 << 30, "gib": 1 << 30, "gb": 1000000000}


def kib_of(text):
    match = re.fullmatch(r"([0-9]{1,20})([A-Za-z]*)", text, re.A)
    if match is None or match[2].lower() not in UNITS:
        return None
    size = int(match[1]) * UNITS[match[2].lower()]
    return up(size, 1024) if size < 1 << 64 else None


# ---- the policy

class Fault(Exception):
    pass


ABSENT = object()


class Keys:
    """The keys of one object; a fault says where it is."""

    def __init__(self, values, guest=None):
        self.values, self.guest = values, guest

    def fault(self, key, what):
        return Fault(f'{"" if self.guest is None else f"guest {self.guest}, "}key "{key}": {what}')

    def get(self, key, required=False):
        value = self.values.get(key, ABSENT)
        if value is ABSENT and required:
            raise self.fault(key, "is absent")
        return value

    def number(self, key, least, most, default=ABSENT):
        value = self.get(key, default is ABSENT)
        if value is ABSENT:
            return default
        if not is_whole(value):
            raise self.fault(key, "is not a whole number")
        if not least <= int(value.text) <= most:
            raise self.fault(key, "is out of range")
        return int(value.text)

    def kib(self, key, required=False):
        """The KiB of a size, or None where it isn't there."""
        value = self.get(key, required)
        if value is ABSENT:
            return None
        if not isinstance(value, str):
            raise self.fault(key, "is not a text")
        size = kib_of(value)
        if size is None:
            raise self.fault(key, "is not a size")
        return size

    def units(self, key, divide, unit, least, most, default):
        size = self.kib(key)
        if size is None:
            return default
        count = divide(size, unit)
        if not least <= count <= most:
            raise self.fault(key, "is out of range")
        return count


def is_whole(value):
    return isinstance(value, Number) and re.fullmatch(r"[0-9]+", value.text) is not None and len(value.text) <= 20 and int(value.text) < 1 << 64


def is_name(name):
    """Of bytes."""
    return re.fullmatch(rb"[A-Za-z0-9_.][A-Za-z0-9_.-]{0,31}", name) is not None


def down(a, b):
    return a // b


class Policy:
    def __init__(self, data):
        try:
            root = json_of(data)
        except (ValueError, RecursionError):
            raise Fault("the text: is no JSON") from None
        if not isinstance(root, dict):
            raise Fault("the text: is not an object")
        keys = Keys(root)
        keys.number("version", 1, 1)
        memory = keys.kib("memory", True)
        self.unit = keys.units("unit", lambda kib, _: kib, 1, 4, 1048576, None)
        if self.unit is None:
            self.unit = 1024
            while memory // self.unit > MOST_UNITS and self.unit < 1048576:
                self.unit *= 2
        unit = self.unit
        self.frames = memory // unit
        if not 1 <= self.frames <= MOST_UNITS:
            raise keys.fault("memory", "is out of range")
        self.overhead = keys.units("overhead", up, unit, 0, 1024, 0)
        self.rate = keys.units("rate", up, unit, 1, MOST_UNITS, max(up(131072, unit), self.frames // 64))
        self.rebalance = keys.units("rebalance", up, unit, 0, MOST_UNITS, self.rate)
        self.tax = keys.number("tax", 0, 9999, 7500)
        self.percent = self.percents(keys)
        self.headroom = keys.number("headroom", 0, 1000, 20)
        allowed = [cache for cache in range(101) if (100 + self.headroom) * cache < 10000]
        self.cache = keys.number("cache", 0, max(allowed), 50 if 50 in allowed else 0)
        self.most = keys.number("most", 0, 99, 65)
        self.patience = keys.number("patience", 1, 10000, 5)
        self.guests = {}
        items = root.get("guests", [])
        if not isinstance(items, list) or not all(isinstance(item, dict) for item in items):
            raise keys.fault("guests", "is not a list of objects")
        if len(items) > 256:
            raise keys.fault("guests", "has too many items")
        for place, item in enumerate(items):
            self.add(Keys(item, place))

    @staticmethod
    def percents(keys):
        value = keys.get("percent")
        if value is ABSENT:
            return [600, 400, 200, 100]
        if not isinstance(value, list) or not all(is_whole(item) for item in value):
            raise keys.fault("percent", "is not a list of whole numbers")
        found = [int(item.text) for item in value]
        if len(found) != 4 or any(item > 10000 for item in found) or found != sorted(found, reverse=True):
            raise keys.fault("percent", "is out of range")
        return found

    def add(self, keys):
        name = keys.get("name", True)
        if not isinstance(name, str):
            raise keys.fault("name", "is not a text")
        name = name.encode()
        if not is_name(name):
            raise keys.fault("name", "is no name")
        if name in self.guests:
            raise keys.fault("name", "is that of an earlier guest")
        least = keys.units("min", up, self.unit, 1, MOST_SIZE, None)
        most = keys.units("max", down, self.unit, 1, MOST_SIZE, None)
        shares = keys.number("shares", 1, 1000000, 1000)
        steer = keys.get("steer")
        if steer is not ABSENT and not isinstance(steer, bool):
            raise keys.fault("steer", "is not true or false")
        self.guests[name] = (least, most, shares, steer is ABSENT or steer)


# ---- a sample

READ = {b"state.state": 0, b"balloon.current": 1, b"balloon.maximum": 2, b"balloon.usable": 3, b"balloon.unused": 4, b"balloon.swap_in": 5}
STATE, CURRENT, MAXIMUM, USABLE, UNUSED, SWAP_IN = range(6)


class Bad(Exception):
    pass


def domains_of(lines):
    """Each domain as its name and its six numbers, in the sample's order."""
    found, numbers = [], None
    for place, line in enumerate(lines, 1):
        if not line:
            continue
        if line[:1] == b" ":
            key, equals, value = line.lstrip(b" ").partition(b"=")
            if not equals or numbers is None:
                raise Bad(f"# line {place}: not a line of domstats\n")
            which = READ.get(key)
            if which is not None:
                if not 1 <= len(value) <= 20 or value.strip(b"0123456789") or int(value) >= 1 << 64:
                    raise Bad(f"# line {place}: not a number\n")
                numbers[which] = int(value)
        elif line.startswith(b"Domain: '") and line.endswith(b"'") and len(line) >= 10:
            numbers = [None] * 6
            found.append((line[9:-1], numbers))
        else:
            raise Bad(f"# line {place}: not a line of domstats\n")
    if len(found) > MOST_DOMAINS:
        raise Bad(f"# line {len(lines) + 1}: more than 256 domains\n")
    if not found:
        raise Bad(f"# line {len(lines) + 1}: no domain\n")
    return found


class Row:
    """One steered domain in one sample."""


class Remembered:
    def __init__(self, row):
        self.target, self.slow, self.fast, self.swap_in = row.target, row.slow, row.fast, row.swap_in
        self.held, self.still = row.own, row.still


class Host:
    def __init__(self, policy):
        self.policy, self.state, self.known = policy, HIGH, {}
        high, soft, hard, low = (policy.frames * percent // 10000 for percent in policy.percent)
        self.high, self.soft, self.hard, self.low = high, soft, hard, low
        self.margin = max(1, policy.frames // 100)
        self.goal = high + self.margin

    # -- rows

    def why_left(self, name, numbers, twice):
        guest = self.policy.guests.get(name)
        if not is_name(name) or name.isdigit():
            return "name"
        if name in twice:
            return "twice"
        if guest is not None and not guest[3]:
            return "policy"
        if numbers[STATE] is not None and numbers[STATE] != 1:
            return "not running"
        if numbers[CURRENT] is None or numbers[MAXIMUM] is None:
            return "no balloon"
        if numbers[USABLE] is None and numbers[UNUSED] is None:
            return "no statistics"
        if not 1 <= numbers[MAXIMUM] // self.policy.unit <= MOST_UNITS:
            return "size"
        return None

    def row(self, name, numbers):
        policy, known, unit = self.policy, self.known.get(name), self.policy.unit
        least, most, shares, _ = policy.guests.get(name, (None, None, 1000, True))
        _, current, maximum, usable, unused, swap_in = numbers
        row = Row()
        row.name, row.shares, row.maximum, row.most = name, shares, maximum, most
        row.size = size = maximum // unit
        row.own = own = min(max(up(current, unit), 1), size)
        # what is idle
        idle = unused if usable is None else usable
        if usable is not None and unused is not None and unused < usable:
            idle = unused + (usable - unused) * (100 - policy.cache) // 100
        before = known.swap_in if known else (swap_in or 0)
        row.swap_in = before if swap_in is None else swap_in
        if row.swap_in >= before + unit:
            idle = 0
        row.used = min(up(max(0, current - idle), unit), own)
        # averages
        x = 65536 * row.used // own
        row.slow = (7 * known.slow + x) // 8 if known else x
        row.fast = (known.fast + x) // 2 if known else x
        row.active = max(row.slow, row.fast, x)
        # bounds
        row.cap = size if most is None else min(most, size)
        if least is None:
            row.min = min(up(size * (100 - policy.most), 100), row.cap)
        else:
            row.min = min(least, size)
        row.min = max(1, row.min)
        row.cap = max(row.cap, row.min)
        row.target = min(max(known.target if known else own, row.min), row.cap)
        # a balloon that doesn't follow
        row.still = 0
        if known and own >= known.held and (own > known.target or known.still >= policy.patience):
            row.still = known.still + 1
            if row.still == 2 * policy.patience:
                row.still = 0
        if row.still >= policy.patience:
            row.min = row.target = own
            row.cap = max(row.cap, own)
        row.demand = max(0, min(row.cap, up(row.used * (100 + policy.headroom), 100)) - row.target)
        row.first_demand = row.demand
        row.held = max(own, row.target)
        row.weight = (10000 - policy.tax) * row.active + 10000 * (65536 - row.active)
        return row

    # -- decisions

    def next_state(self, free):
        candidate = LOW if free < self.low else HARD if free < self.hard else SOFT if free < self.soft else HIGH
        if candidate < self.state:
            self.state = candidate
        elif self.state < HIGH and free >= [self.hard, self.soft, self.high][self.state] + self.margin:
            self.state += 1

    @staticmethod
    def revoke(rows, count):
        heap = [(price(row, row.target), place) for place, row in enumerate(rows) if row.target > row.min]
        heapq.heapify(heap)
        taken = [0] * len(rows)
        while count > 0 and heap:
            place = heap[0][1]
            row = rows[place]
            row.target -= 1
            taken[place] += 1
            count -= 1
            if row.target > row.min:
                heapq.heapreplace(heap, (price(row, row.target), place))
            else:
                heapq.heappop(heap)
        return taken

    def grant(self, rows, free):
        given = [0] * len(rows)
        if self.state == LOW:
            return given
        above = {HIGH: self.soft, SOFT: self.hard, HARD: self.low}[self.state]
        # price negated: the greatest first, among equal ones the lowest position
        heap = [(-price(row, row.target), place) for place, row in enumerate(rows) if row.demand > 0 and row.target < row.cap]
        heapq.heapify(heap)
        while heap and free > above:
            place = heap[0][1]
            row = rows[place]
            if self.state != HIGH:
                others = [price(other, other.target) for other in rows if other is not row and other.target > other.min]
                if not others or price(row, row.target + 1) < min(others):
                    break
            if row.held == row.target:
                row.held += 1
                free -= 1
            row.target += 1
            row.demand -= 1
            given[place] += 1
            if row.demand > 0 and row.target < row.cap:
                heapq.heapreplace(heap, (-price(row, row.target), place))
            else:
                heapq.heappop(heap)
        return given

    def rebalance(self, rows):
        wanted = sum(min(row.demand, row.cap - row.target) for row in rows)
        on_its_way = sum(row.held - row.target for row in rows if row.demand == 0)
        count = max(0, min(self.policy.rebalance, wanted) - on_its_way)
        target, demand = [row.target for row in rows], [row.demand for row in rows]
        floor = [min(row.min, row.target) for row in rows]
        taken = [0] * len(rows)

        def wants(place):
            return demand[place] > 0 and target[place] < rows[place].cap

        takers = [(-price(row, target[place] + 1), place) for place, row in enumerate(rows) if wants(place)]
        givers = [(price(row, target[place]), place) for place, row in enumerate(rows) if target[place] > floor[place]]
        heapq.heapify(takers)
        heapq.heapify(givers)
        while count > 0:
            # entries of the heaps may be stale: those whose key isn't that of now are renewed
            taker = self.top(takers, lambda place: wants(place), lambda place: -price(rows[place], target[place] + 1))
            giver = self.top(givers, lambda place: target[place] > floor[place], lambda place: price(rows[place], target[place]))
            if taker is None or giver is None or not price(rows[taker], target[taker] + 1) > price(rows[giver], target[giver]):
                break
            if demand[giver] > 0 and self.comes_back(rows, target, demand, giver):
                break
            target[giver] -= 1
            target[taker] += 1
            demand[taker] -= 1
            taken[giver] += 1
            count -= 1
            if wants(giver):
                heapq.heappush(takers, (-price(rows[giver], target[giver] + 1), giver))
            if target[taker] > floor[taker]:
                heapq.heappush(givers, (price(rows[taker], target[taker]), taker))
        for place, row in enumerate(rows):
            row.target -= taken[place]
        return taken

    @staticmethod
    def top(heap, is_in, key_of):
        while heap:
            key, place = heap[0]
            if not is_in(place):
                heapq.heappop(heap)
            elif key_of(place) != key:
                heapq.heapreplace(heap, (key_of(place), place))
            else:
                return place
        return None

    @staticmethod
    def comes_back(rows, target, demand, giver):
        """Whether the giver, with its target 1 less, would be the first that the grant list chooses."""
        best = None
        for place, row in enumerate(rows):
            now = target[place] - (place == giver)
            if demand[place] > 0 and now < row.cap:
                found = (-price(row, now), place)
                if best is None or found < best:
                    best = found
        return best is not None and best[1] == giver

    # -- a sample

    def decide(self, found):
        """What is said of one good sample: the state, free, and each domain in order as (name, held, why) or a row with its order."""
        policy = self.policy
        found = sorted(found, key=lambda domain: domain[0])
        names = [name for name, _ in found]
        twice = {a for a, b in zip(names, names[1:]) if a == b}
        told, rows, rest = [], [], policy.overhead * len(found)
        for name, numbers in found:
            why = self.why_left(name, numbers, twice)
            if why is None:
                row = self.row(name, numbers)
                rows.append(row)
                told.append(row)
                continue
            held = min(up(numbers[CURRENT] or 0, policy.unit), MOST_SIZE)
            known = self.known.get(name)
            rest += max(held, known.target if known else 0)
            told.append((name, held, why))
        given = rest + sum(row.held for row in rows)
        free = max(0, policy.frames - given)
        self.next_state(free)
        need = self.goal + rest + sum(row.target for row in rows) - policy.frames
        lists = {"revoke": self.revoke(rows, max(0, need) if self.state != HIGH else 0), "grant": self.grant(rows, free)}
        lists["rebalance"] = self.rebalance(rows)
        for row in rows:
            row.order = self.order(row, given)
        present = set(names)
        self.known = {name: known for name, known in self.known.items() if name in present}
        for row in rows:
            self.known[row.name] = Remembered(row)
        return STATES[self.state], free, told, rows, lists

    def order(self, row, given):
        if row.own > row.target:
            units = max(row.target, row.own - self.policy.rate)
        elif row.own < row.target and given <= self.policy.frames:
            units = row.target
        else:
            return None
        if units == row.size and (row.most is None or row.most * self.policy.unit >= row.maximum):
            return row.maximum
        return units * self.policy.unit


def price(row, target):
    """S / (P * W) as a whole number that keeps the order: products P * W are below 2^48, so unequal fractions differ by more than 2^-96."""
    return (row.shares << 100) // (target * row.weight)


# ---- texts

def shown(name):
    return name.decode() if is_name(name) else "-"


def text_of(state, free, told, rows, lists):
    parts = [f"# left {shown(domain[0])} {domain[1]} {domain[2]}\n" for domain in told if isinstance(domain, tuple)]
    parts.append(f"# state {state} free {free}\n")
    for word, counts in lists.items():
        parts += [f"# {word} {row.name.decode()} {count}\n" for row, count in zip(rows, counts) if count]
    for row in rows:
        name = row.name.decode()
        parts.append(f"# guest {name} target {row.target} held {row.own} used {row.used} active {row.active}\n")
        if row.order is not None:
            parts.append(f"setmem {name} {row.order}\n")
    return "".join(parts)


def table_of(sample, state, free, told):
    parts = []
    for domain in told:
        if isinstance(domain, tuple):
            parts.append(f"{sample},{state},{free},{shown(domain[0])},{domain[1]},{domain[2]},,,,,,,,\r\n")
        else:
            order = "" if domain.order is None else domain.order
            parts.append(f"{sample},{state},{free},{domain.name.decode()},{domain.own},,{domain.target},{domain.used},{domain.active},"
                         f"{domain.first_demand},{domain.min},{domain.cap},{domain.shares},{order}\r\n")
    return "".join(parts)


# ---- the program

class Stop(Exception):
    def __init__(self, status, words):
        super().__init__(words)
        self.status, self.words = status, words


def sections():
    """(bytes, lines, ended) of the policy and of each sample: the lines in front of each `---`."""
    lines, size, partial = [], 0, b""
    while True:
        try:
            block = os.read(0, 1 << 16)
        except OSError:
            raise Stop(3, "read failed") from None
        if not block:
            break
        pieces = (partial + block).split(b"\n")
        partial = pieces.pop()
        for line in pieces:
            if line == b"---":
                yield lines, True
                lines, size = [], 0
                continue
            lines.append(line)
            size += len(line) + 1
            if size > MOST_BYTES:
                raise Stop(3, "read failed")
        if size + len(partial) > MOST_BYTES and not b"---".startswith(partial):
            raise Stop(3, "read failed")
    if size + len(partial) > MOST_BYTES:
        raise Stop(3, "read failed")
    yield lines + [partial], False


def write(text):
    data = text.encode()
    try:
        while data:
            data = data[os.write(1, data):]
    except OSError:
        raise Stop(3, "write failed") from None


def run(is_table):
    stream = sections()
    lines, ended = next(stream)
    try:
        policy = Policy(b"".join(line + b"\n" for line in lines[:-1]) + (lines[-1] + b"\n" if ended else lines[-1]) if lines else b"")
    except Fault as fault:
        raise Stop(1, str(fault)) from None
    host = Host(policy)
    if is_table:
        write(HEADER)
    for sample, (lines, ended) in enumerate(stream):
        if not ended:
            break
        try:
            decided = host.decide(domains_of(lines))
        except Bad as bad:
            if not is_table:
                write(f"# sample {sample}\n{bad}")
            continue
        state, free, told, rows, lists = decided
        write(table_of(sample, state, free, told) if is_table else f"# sample {sample}\n" + text_of(state, free, told, rows, lists))


def main():
    words = sys.argv[1:]
    if words not in ([], ["--csv"]):
        print("usage: vmsteer [--csv | --svg]", file=sys.stderr)
        return 2
    try:
        run(bool(words))
    except Stop as stop:
        print(f"vmsteer: {stop.words}", file=sys.stderr)
        return stop.status
    return 0


if __name__ == "__main__":
    sys.exit(main())

#!/usr/bin/env python3
"""Makes a configuration text and words of vmsweep: made.py SEED [guests | drawn] writes the text to standard output, and the words to
standard error.

The same SEED makes the same bytes. Machines are often too small; guests start and stop, stall and are blocked; lines of texts raise and lower
minimums and caps; names look like other lines of a report. Some texts and some words are refused. With `guests` there are the words that
change guests too; with `drawn` as well, of sweeps that can mostly be drawn, with several seeds.
"""
import json
import random
import sys

TOP = (1 << 64) - 1
NAMES = ["a", "b", "web", "db", "page", "stall", "block", "grant", "revoke", "rebalance", "state", "end", "epoch", "machine", "ok", "error", "actual",
         "rss", "r", "target", "free", "held", "high", "nobody", "g0", "g1", "g10", "l0", "swap_in", "A", "_", ".", "..", "a-", "7", "1.5", "start",
         "destroy", "n" * 32, "n" * 31 + "m", "true", "none"]
NO_NAMES = ["", "two words", "it's", "-a", "caf\u00e9", 'a"b', "a,b", "a=b", "\u20ac", "x" * 33, "a/b", "a\tb"]
SIZES = ["4k", "8KiB", "{}k", "{}", "{}KiB", "0", "1b", "1M", "64k", "-1", "1T", "99999999999999999999"]


class Maker:
    def __init__(self, seed, has_guests=False, is_drawn=False):
        self.r = random.Random(f"{seed} {'drawn' if is_drawn else has_guests}")
        self.has_guests = has_guests
        self.version = self.r.choice([1, 2, 3, 3])
        # where much is swapped, and where free memory falls below all thresholds as guests start
        kind = self.r.choice(["loose", "tight", "tight", "scarce", "scarce"])
        self.is_tight, self.is_scarce = kind != "loose", kind == "scarce"

    def chance(self, part):
        return self.r.random() < part

    # ---- traces

    def raw(self, size):
        """A raw post: pages that may be in the balloon or not, wrong ones, rests, statistics."""
        r = self.r
        queue = r.choice("iiids")
        if queue == "s" or self.chance(0.1):
            data = bytes(r.choice([r.randrange(256), 0]) for _ in range(r.choice([1, 10, 20, 23])))
        else:
            pages = [r.choice([r.randrange(size), r.randrange(size), size, 1 << 24]) for _ in range(r.choice([1, 1, 2, 3]))]
            data = b"".join(page.to_bytes(4, "little") for page in pages) + b"x" * r.choice([0, 0, 0, 1, 3])
        return f"p {queue} {data.hex()}"

    def step(self, size, pages, posts):
        r = self.r
        page, kind = r.choice(pages), r.random()
        if kind < 0.42:
            return f"r {page} {r.choice([0, 5, 4080])} {r.choice([1, 2, 16])}"
        if kind < 0.78:
            return f"w {page:0{r.choice([1, 1, 1, 4])}} {r.choice([0, 5, 4095])} {r.randrange(256):02x}"
        if kind < 0.84:
            return f"f {page}"
        if kind < 0.90:
            return "i"
        if kind < 0.90 + posts:
            return self.raw(size)
        if self.version < 3:
            return f"r {page} 0 1"
        count = r.randint(1, min(size - page, 12))
        actual = r.choice([0, 1, size, size + 5, 4294967295])
        return r.choice([f"t {page} {count}", f"t {page} {count}", f"f {page} {count}", "y", "y", f"a {actual}"])

    def trace(self, size, steps):
        """Working sets that move, and loops over them."""
        r, found = self.r, []
        posts = r.choice([0, 0, 0.03, 0.1])
        if self.chance(0.04):
            found = [f"p i {r.randrange(size).to_bytes(4, 'little').hex()}"] * r.randint(15, 18)
        while len(found) < steps:
            first, count = r.randrange(size), r.randint(size // 2 + 1 if self.is_tight else 1, size)
            pages = [(first + more) % size for more in range(count)]
            if self.chance(0.7 if self.is_tight else 0.4):
                found += [f"r {page} 0 1" if self.chance(0.5) else f"w {page} 0 0f" for page in pages]
            else:
                found += [self.step(size, pages, posts) for _ in range(r.randint(1, 20))]
        return found[:steps]

    # ---- texts

    def guest(self, name, quantum, epochs):
        r = self.r
        size = r.choice([1, 2, r.randint(2, 12), r.randint(2, 12), r.randint(4, 30), r.randint(4, 30)])
        least = r.choice([1, size, r.randint(1, size), r.randint(1, size), max(1, size // 3)])
        if self.is_tight:
            size = r.randint(6, 24)
            least = r.randint(1, size // 2)
        guest = {"name": name, "size": size, "min": least}

        def maybe(key, part, *values):
            if self.chance(part):
                guest[key] = r.choice(values)
        maybe("shares", 0.6, 1, 1000, 2000, 1000000, r.randint(1, 5000))
        maybe("samples", 0.7, 1, 5, r.randint(1, 40))
        maybe("period", 0.3 if self.is_tight else 0.5, 1, quantum, 3 * quantum, r.randint(1, 200), 1000000)
        maybe("rate", 0.4, 1, 2, 4, r.randint(1, 256))
        maybe("seed", 0.7, 0, 1, 42, TOP, TOP - 1, r.randint(0, TOP))
        maybe("stream", 0.3, 0, 54, TOP, r.randint(0, TOP))
        maybe("autostart", 0.9 if self.is_scarce else 0.6, True, False)
        maybe("tell", 0.5, *([True, False] if self.version > 1 else [False, "no", None]))
        maybe("driver", 0.3, *(["own", "none"] if self.version > 2 else ["none", 5, None]))
        maybe("more", 0.05, [None, {"name": 1.5e300}], "\u20ac")
        if self.chance(0.95):
            steps = r.choice([quantum * epochs // 2, quantum * epochs, r.randint(0, quantum * (epochs + 1))])
            guest["trace"] = self.trace(size, steps if self.is_tight else r.choice([0, 1, steps, steps]))
        return guest

    def line(self, guests, at):
        r = self.r
        guest = r.choice(guests)
        name = guest["name"] if self.chance(0.96) else r.choice(["nobody", "-a", "G0", "x,y"])
        size = r.choice([guest["min"], guest["size"], guest["size"] + 1] + [r.randint(1, guest["size"]) for _ in range(3)])
        kib = f"{size * self.page}{r.choice(['k', 'KiB', ''])}" if self.chance(0.9) else r.choice(SIZES).format(4 * size)
        kind = r.random()
        if kind < 0.25:
            words = ["start", name]
        elif kind < 0.42:
            words = ["destroy", name]
        elif kind < 0.55:
            words = ["setmem", name, kib]
        elif kind < 0.78:
            words = r.choice([["memtune", name, "--min-guarantee", kib], ["memtune", "--min-guarantee", kib, name],
                              ["memtune", name, f"--min-guarantee={kib}"], ["memtune", f"--min-guarantee={kib}", name]])
        elif kind < 0.88:
            words = ["memshares", name, r.choice(["1", "500", "1000000", "1000001", "x", str(r.randint(1, 9999999))])]
        elif kind < 0.95:
            words = ["dommemstat", name]
        else:
            words = r.choice([["help"], ["start"], ["memtune", name], ["> ok"], ["ok"], ["setmem", name], ["memtune", "--min-guarantee", "8"],
                              ["page", name, "3"]])
        return {"at": at, "line": r.choice([" ", " ", " ", "   "]).join(words) + r.choice(["", "", " "])}

    def text(self):
        r, version = self.r, self.version
        quantum, epochs = r.choice([1, 2, 5, 8, 8, 12, 20]), r.choice([0, 1, 2, 4, 5, 6, 8, 10])
        if self.is_tight:
            quantum, epochs = r.choice([6, 8, 10, 12, 16]), r.choice([3, 4, 5, 6, 8])
        self.page = r.choice([4, 4, 5, 16, 1048576]) if version == 3 else 4
        names = r.sample(NAMES, r.choice([2, 3, 3, 4, 5] if self.is_tight else [0, 1, 2, 2, 3, 3, 4, 5]))
        if self.chance(0.03):
            names += [f"{name}.{number}" for number in range(20) for name in ("a", "page")]
        guests = [self.guest(name, quantum, epochs) for name in names]
        scale = 1 if version == 1 else 100
        size, least = sum(guest["size"] for guest in guests), sum(guest["min"] for guest in guests)
        overhead = r.choice([0, 0, 1, 2])
        self.least = max(1, least + overhead * len(guests))
        self.size = max(self.least, size + overhead * len(guests))
        self.reserve = size - least
        root = {"version": version, "frames": self.frames(), "guests": guests, "epochs": epochs}
        self.machine(root, scale, size, overhead)
        root["quantum"] = quantum
        if guests and epochs:
            ats = sorted(r.randrange(epochs + 1) for _ in range(r.choice([0, 2, 4] if self.is_tight else [0, 2, 4, 8, 12])))
            root["commands"] = [self.line(guests, at) for at in ats]
            for guest in guests:
                if guest.get("autostart") is False and self.chance(0.8):
                    root["commands"].append({"at": r.randrange(epochs), "line": f"start {guest['name']}"})
        return root

    def machine(self, root, scale, size, overhead):
        """The keys of the machine, with numbers of percents times a scale."""
        r, version = self.r, self.version

        def maybe(key, part, *values):
            if self.chance(part):
                root[key] = r.choice(values)
        maybe("swap", 0.95, self.reserve, 2 * size, 2 * size, size if self.is_tight else r.randint(0, size + 1))
        maybe("overhead", 1 if overhead else 0.5, overhead)
        maybe("tax", 0.5, 0, 75 * scale, 99 * scale, r.randint(0, 99 * scale))
        bounds = [(0, 0), (0, 30)] if self.is_tight else [(0, 100), (0, 20), (0, 20), (0, 40)]
        if self.is_scarce:
            bounds = [(10, 60), (20, 50), (5, 40)]
        maybe("percent", 0.9 if self.is_scarce else 0.5,
              *(sorted((r.randint(low * scale, high * scale) for _ in range(4)), reverse=True) for low, high in bounds))
        maybe("page_rate", 0.6, *([1, 1, 2] if self.is_tight else [1, 2, 16, r.randint(1, 256)]))
        maybe("rebalance", 0.6, *([0, 1, 3, 64, 262144] if version == 3 else [-1, 5, None]))
        maybe("page", 1 if self.page != 4 else 0.4, self.page if version == 3 else None)

    def frames(self):
        r = self.r
        if self.is_tight and self.chance(0.8):
            more = self.size - self.least
            return self.least + (r.randint(more // 3, more) if self.is_scarce else r.randint(0, more * 2 // 3))
        return r.choice([1, self.least, self.least, self.least + 1, self.size, self.size + 3, 2 * self.size + 20, r.randint(1, self.size),
                         r.randint(self.least, self.size), r.randint(self.least, self.size), r.randint(self.least, self.size + 10)])

    def spoiled(self, root):
        """A text that is refused, mostly."""
        r = self.r
        kind = r.randrange(6)
        if kind == 0:
            root.pop(r.choice(list(root)))
        elif kind == 1 and root["guests"]:
            r.choice(root["guests"])["name"] = r.choice(NO_NAMES)
        elif kind == 2 and root["guests"]:
            key = r.choice(["size", "min", "shares", "seed", "trace"])
            r.choice(root["guests"])[key] = r.choice([0, -1, 1.5, "1", None, TOP + 1, ["x"], ["r 0 0"], []])
        elif kind == 3 and root["guests"]:
            root["guests"].append(dict(root["guests"][0]))
        elif kind == 4:
            key = r.choice(["frames", "swap", "tax", "page_rate", "epochs", "percent"])
            root[key] = r.choice([0, 262145, "1", None, 100000000, [1, 2, 3, 4], 75.5])
        else:
            return b"{" + json.dumps(root).encode()[: r.randint(0, 40)]
        return json.dumps(root).encode()

    # ---- words

    def listed(self, values, least, most, is_percent=False):
        """Some values as a LIST: one by one, or as a range."""
        r = self.r

        def number(value):
            if not is_percent:
                return f"{value:0{r.choice([1, 1, 1, 5])}}"
            whole, part = divmod(value, 100)
            return r.choice([f"{whole}.{part:02}"] + [f"{whole}"] * (part == 0) + [f"{whole}.{part // 10}"] * (part % 10 == 0))
        items, left = [], r.choice([1, 1, 2] if self.is_tight else [1, 1, 2, 2, 3])
        while left > 0:
            value = min(most, max(least, r.choice(values)))
            count = r.randint(1, left)
            step = r.choice([1, 1, 7, max(1, value // 2), 50]) * (100 if is_percent and self.chance(0.5) else 1)
            if self.chance(0.4) and value + (count - 1) * step <= most:
                end = min(most, value + (count - 1) * step + r.randrange(step))
                named = f"/{number(step)}" if step != (100 if is_percent else 1) or self.chance(0.3) else ""
                items.append(f"{number(value)}..{number(end)}{named}")
                left -= count
            else:
                items.append(number(value))
                left -= 1
        return ",".join(items)

    def wrong(self, text):
        """A LIST that is refused, mostly."""
        r = self.r
        behind = [",", ",,1", ",x", ",0", ",9..8", ",1..5/0", ",262145", ",67108865", " ", ",00000000001", ",1...2", ",1..", ",1../2", ",1/2",
                  ",75.123", ",1.5", ",-1", ",+1", ",100", ",99.99", ",1..2/00", ",1..0/0", ",9999999999", ",1..9999999999", "\u00e9,0", ",\u0663",
                  ",1000001", ",5..4/0", ",1;2", ",257"]
        return r.choice([text + more for more in behind] + ["", " " + text, "," + text, "1..100000", "0..2/0.00"])

    def given(self):
        r = self.r
        lists = {}
        if self.chance(0.7):
            lists["frames"] = self.listed([self.frames() for _ in range(3)] + r.choice([[], [], [self.least - 1], [65537], [262144]]), 1, 262144)
        if self.chance(0.3):
            # values that rise, of which there is a drawing
            first, step = min(self.frames(), 262000), r.choice([1, 2, 7, max(1, self.least // 2)])
            lists["frames"] = f"{first}..{first + r.randint(1, 3) * step}" + (f"/{step}" if step > 1 else "")
        if self.chance(0.3):
            lists["swap"] = self.listed([0, self.reserve, max(0, self.reserve - 1), 5000000, self.size], 0, 67108864)
        if self.chance(0.4):
            lists["tax"] = self.listed([0, 7500, 9999, 9950, 25, r.randint(0, 9999)], 0, 9999, True)
        if self.chance(0.3):
            lists["page-rate"] = self.listed([1, 2, 16, 256], 1, 256)
        if self.chance(0.4):
            lists["rebalance"] = self.listed([0, 1, 3, 64, 262144], 0, 262144)
        return lists

    def of_guests(self, root):
        """Words that change guests, as pairs of a word and its value."""
        r, found = self.r, []
        if self.chance(0.4):
            found.append(("min-percent", self.listed([1, 33, 50, 100, r.randint(1, 100)], 1, 100)))
        guests = list(root["guests"])
        for key in "min", "shares":
            for guest in r.sample(guests, min(len(guests), r.choice([0, 0, 1, 1, 2]))):
                most = guest["size"] if key == "min" else 1000000
                values = [1, guest["size"], r.randint(1, guest["size"])] if key == "min" else [1, 1000, 1000000, r.randint(1, 5000)]
                name = guest["name"] if self.chance(0.98) else r.choice(NO_NAMES + ["absent", "-a"])
                value = self.listed(values, 1, most)
                if self.chance(0.03):
                    value = self.wrong(value)
                if self.chance(0.03):
                    value += f",{guest['size'] + 1}"
                found.append((key, f"{name}={value}"))
                if self.chance(0.02):
                    found.append((key, f"{name}=1"))
        if self.chance(0.4):
            found.append(("seeds", r.choice(["1", "2", "3", "3"] + ["0", "1001", "1,2"] * self.chance(0.2))))
        return found

    def few(self, values, most):
        """One to `most` of these."""
        return ",".join(map(str, self.r.sample(values, min(len(values), self.r.randint(1, most)))))

    def drawn_words(self, root):
        """Words of a sweep with few curves, mostly."""
        r = self.r
        first, step = min(self.frames(), 260000), r.choice([1, 2, 7, max(1, self.least // 3)])
        found = [("frames", f"{first}..{first + r.randint(1, 4) * step}/{step}")]
        loops = [(key, self.few(values, 3)) for key, values in (
            ("swap", [0, self.reserve, self.size + 1, 5000000]), ("tax", [0, 75, "99.99", "0.5"]), ("page-rate", [1, 2, 256]),
            ("rebalance", [0, 1, 3, 64]), ("min-percent", [1, 33, 50, 100]))]
        for key in "min", "shares":
            for guest in root["guests"]:
                values = [1, guest["size"], (guest["size"] + 1) // 2] if key == "min" else [1, 1000, 1000000]
                loops.append((key, f"{guest['name']}={self.few(sorted(set(values)), 2)}"))
        found += r.sample(loops, min(len(loops), r.choice([0, 1, 1, 2, 2, 3])))
        if self.chance(0.8):
            found.append(("seeds", r.choice(["1", "2", "3", "4", "5", "8"])))
        if self.chance(0.5):
            found.append(("workers", r.choice(["1", "2", "3"])))
        r.shuffle(found)
        return [word for key, value in found for word in ([f"--{key}={value}"] if self.chance(0.5) else [f"--{key}", value])]

    def words(self, root):
        r = self.r
        lists = self.given()
        if self.has_guests:
            # fewer runs, since the words that change guests make more of them
            lists = dict(r.sample(list(lists.items()), min(len(lists), 1)))
        if self.chance(0.1) and lists:
            for _ in range(r.choice([1, 1, 2])):
                key = r.choice(list(lists))
                lists[key] = self.wrong(lists[key])
        pairs = list(lists.items()) + (self.of_guests(root) if self.has_guests else [])
        if self.chance(0.5):
            pairs.append(("workers", r.choice(["1", "2", "3", "+07", "64"])))
        words = [[f"--{key}={value}"] if self.chance(0.5) or value[:1] == "-" else [f"--{key}", value] for key, value in pairs]
        words += [["--guests"]] * self.chance(0.4) + [["--progress"]] * self.chance(0.3)
        if self.chance(0.04):
            words.append(r.choice([["--guests"], ["--frames", "5"], ["--workers", "0"], ["--workers=65"], ["--help"], ["text", "text"], ["--swap"],
                                   ["--guests=1"], ["--seed", "1"]]))
        r.shuffle(words)
        return [word for pair in words for word in pair]


def made(seed, has_guests=False, is_drawn=False):
    """The text and the words of a seed."""
    maker = Maker(seed, has_guests, is_drawn)
    root = maker.text()
    words = maker.drawn_words(root) if is_drawn else maker.words(root)
    if maker.chance(0.06):
        return maker.spoiled(root), words
    indent = maker.r.choice([None, None, 1])
    return json.dumps(root, indent=indent, ensure_ascii=maker.chance(0.5)).encode(), words


def main(words):
    if len(words) not in (1, 2) or not words[0].isdigit() or words[1:] not in ([], ["guests"], ["drawn"]):
        print(__doc__)
        return 0 if words in (["-h"], ["--help"]) else 2
    text, found = made(int(words[0]), len(words) == 2, words[1:] == ["drawn"])
    sys.stdout.buffer.write(text)
    sys.stderr.buffer.write(("\n".join(found) + "\n").encode("utf-8", "surrogateescape"))
    return 0


if __name__ == "__main__":
    sys.exit(main(sys.argv[1:]))

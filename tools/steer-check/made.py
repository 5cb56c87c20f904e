#!/usr/bin/env python3
"""Makes a host log: made.py SEED COUNT writes a policy and COUNT samples of all shapes to standard output.

The same SEED and COUNT make the same bytes. Domains follow the orders of reading.py, each in a manner of its own (at once, in part, never,
by taking back), come, go, pause, lack statistics, stand twice. Some policies are refused, some samples bad.
"""
import json
import os
import random
import sys

sys.path.insert(0, os.path.dirname(os.path.abspath(__file__)))
import reading  # noqa: E402

TOP = (1 << 64) - 1


class Maker:
    def __init__(self, seed, count):
        self.r = random.Random(seed)
        self.count = count
        self.is_lively = self.r.random() < 0.5

    def chance(self, part):
        return self.r.random() < part

    def log_uniform(self, least, most):
        """From least to most, small ones as likely as great ones."""
        return min(most, max(least, int(2 ** self.r.uniform((least or 0.5).bit_length() - 1 if least else -1, most.bit_length()))))

    # ---- the policy

    def size(self, kib):
        """A size that is some KiB, written in one of its forms."""
        forms = [f"{kib}", f"{kib}k", f"{kib}KiB", f"{kib}kIb", f"{kib * 1024}b", f"{kib * 1024}BYTES", f"{kib * 1024}byte"]
        if kib % 1024 == 0:
            forms += [f"{kib // 1024}M", f"{kib // 1024}mib"]
        if kib % (1 << 20) == 0:
            forms += [f"{kib >> 20}G", f"{kib >> 20}GiB"]
        if kib and self.chance(0.1):
            forms += [f"{kib * 1024 // 1000}KB", f"{kib * 1024 // 1000000}MB", f"{kib * 1024 // 1000000000}GB", f"{kib * 1024 - 1}b"]
        text = self.r.choice(forms)
        return text if len(text) < 21 else f"{kib}"

    def name(self):
        kind = self.r.random()
        if kind < 0.7:
            return "".join(self.r.choice("abcxyz") for _ in range(self.r.randint(1, 3))).encode()
        if kind < 0.8:
            text = "".join(self.r.choice("aB09_.-") for _ in range(self.r.choice([1, 2, 5, 31, 32, 33])))
            return text.encode()
        if kind < 0.86:
            return b"n" * 31 + bytes([self.r.choice(b"abc")])
        if kind < 0.90:
            return str(self.r.choice([0, 7, 12, 4711, 10 ** 31])).encode()
        return self.r.choice([b"", b"two words", b"it's", b"'", b"''", b"-a", b"a-", b"caf\xc3\xa9", b"\xff\xfe", b"a=b", b"Domain: 'x'", b"a\tb", b"a\r",
                              b"#", b"a;b", b"---", b" a", b"a ", b".", b"..", b"_", b"A", b"Z" * 33, b"x" * 300])

    def policy(self):
        r = self.r
        unit = r.choice([None, None, 4, 5, 64, 1000, 1024, 1024, 2048, 4096, 16384, 1048576, self.log_uniform(4, 1048576)])
        frames = r.choice([1, 2, 99, 100, 101, 262144, 262143, self.log_uniform(1, 262144), self.log_uniform(1, 3000), r.randint(50, 500),
                           r.randint(50, 500), r.randint(50, 500)])
        if self.is_lively:
            unit, frames = r.choice([None, 64, 1000, 1024, 4096]), r.choice([r.randint(20, 120), r.randint(100, 600), r.randint(100, 3000)])
        u = unit or 1024
        memory = frames * u + (r.randrange(u) if self.chance(0.3) else 0)
        if unit is None and not self.is_lively and self.chance(0.1):
            memory = r.choice([262144 * 1024, 262144 * 1024 + 1, 262145 * 1024, 262145 * 2048, (1 << 54) - 1, (1 << 50), r.randrange(1 << 45)])
        p = {"version": 1, "memory": self.size(memory)}
        if unit is not None:
            p["unit"] = self.size(unit)

        def maybe(key, part, value):
            if self.chance(part):
                p[key] = value()
        maybe("overhead", 0.2 if self.is_lively else 0.3, lambda: self.size(r.choice([0, 1, u - 1, u, u + 1, r.randrange(max(1, 3 * u)), r.randrange(1024 * u + 1)])))
        maybe("rate", 0.6, lambda: self.size(r.choice([1, u, r.randint(1, 20) * u, r.randint(1, 20) * u + 1, self.log_uniform(1, 262144) * u])))
        maybe("rebalance", 0.5, lambda: self.size(r.choice([0, 1, u, r.randint(0, 40) * u, self.log_uniform(1, 262144) * u])))
        maybe("tax", 0.5, lambda: r.choice([0, 1, 7500, 9999, r.randint(0, 9999)]))
        maybe("percent", 0.4, lambda: sorted((r.choice([0, 10000, r.randint(0, 10000), r.randint(0, 1200)]) for _ in range(4)), reverse=True))
        maybe("headroom", 0.4, lambda: r.choice([0, 1, 20, 99, 100, 1000, r.randint(0, 150)]))
        head = p.get("headroom", 20)
        most_cache = max(c for c in range(101) if (100 + head) * c < 10000)
        maybe("cache", 0.5, lambda: r.choice([0, most_cache, r.randint(0, most_cache)]))
        maybe("most", 0.5, lambda: r.choice([0, 1, 65, 99, r.randint(0, 99)]))
        maybe("patience", 0.6, lambda: r.choice([1, 2, 3, 5, r.randint(1, 10000)]))
        self.names = list({self.name() for _ in range(r.choice([1, 2, 3, 3, 4, 6, 10, 30]))})
        if self.is_lively:
            self.names = r.sample([b"a", b"b", b"c", b"d", b"web", b"db", b"1.5", b"n" * 32, b"A", b"_x"], r.randint(2, 9))
        self.unit_kib, self.frames, self.is_tight = u, frames, self.is_lively or self.chance(0.3)
        self.domains = [self.new_domain(name) for name in self.names]
        if self.chance(0.7):
            guests, used = [], set()
            for name in self.names + [b"absent"]:
                if name not in used and reading.is_name(name) and self.chance(0.6):
                    used.add(name)
                    g = {"name": name.decode()}
                    known = [d["maximum"] for d in self.domains if d["name"] == name]
                    if self.chance(0.25) and known:
                        g["max"] = self.size(max(u, min((1 << 54) - 1, r.choice(known) + r.choice([0, 0, -1, 1, -u, u, u - 1, 1 - u, -u // 2]))))
                    elif self.chance(0.1 if self.is_lively else 0.4):
                        g["min"] = self.size(r.choice([1, u, r.randint(1, 2 * frames) * u, r.randint(1, frames) * u + 1, (1 << 54) - 1]))
                    if "max" not in g and self.chance(0.1 if self.is_lively else 0.4):
                        g["max"] = self.size(r.choice([u, r.randint(1, 2 * frames) * u, r.randint(1, frames) * u + u - 1, (1 << 54) - 1]))
                    if self.chance(0.5):
                        g["shares"] = r.choice([1, 500, 1000, 2000, 1000000, r.randint(1, 1000000)])
                    if self.chance(0.2):
                        g["steer"] = self.chance(0.5)
                    if self.chance(0.1):
                        g["more"] = [None, {"name": 1}]
                    guests.append(self.shuffled(g))
            p["guests"] = guests[:256]
        if self.chance(0.2):
            p["$schema"] = "é\u2028 \\ \""
        return p

    def shuffled(self, mapping):
        items = list(mapping.items())
        self.r.shuffle(items)
        return dict(items)

    def spoiled(self, p):
        """A policy with a value, or two, that may be wrong."""
        r = self.r
        wrong = [None, True, 0, 1, -1, 2 ** 64, 2 ** 64 - 1, 10000, 10001, 9999, 100, 101, 99, 1000001, 1000000, 262145, 75.0, 1e3, "", "x", "1", "0",
                 "-1", "1T", "1 k", "512M", "2GiB", "99999999999999999999", "18446744073709551615b", "18446744073709551616b", "18014398509481984",
                 "18014398509481983", "000000000000000000001", "00000000000000000001", "1kIB", "1048577", "3", "4", "1GiB", "+1", "1.5M", "１", "1e3",
                 [], {}, [1], ["a"], [{}], [600, 400, 200], [600, 400, 200, 100, 50], [600, 400, 200, "1"], [10001, 1, 1, 1], [1, 2, 3, 4],
                 [5, 5, 5, 5], [600, 400, 200, 100.0], [0, 0, 0, 0], [600, 400, 200, -1], [2 ** 70, 1, 1, 1], [{"name": "a"}] * 2, [{"name": "a"}] * 257,
                 [{"name": "a"}, 5], [{"name": ""}], [{"name": "-a"}], [{"name": "n" * 33}], [{"name": "é"}], [{"name": None}]]
        keys = ["version", "memory", "unit", "overhead", "rate", "rebalance", "tax", "percent", "headroom", "cache", "most", "patience", "guests"]
        for _ in range(r.choice([1, 1, 1, 2, 3])):
            kind = r.random()
            if kind < 0.15:
                p.pop(r.choice(list(p) or ["x"]), None)
            elif kind < 0.35 and p.get("guests") and isinstance(p["guests"], list) and isinstance(p["guests"][0], dict):
                guest = r.choice([g for g in p["guests"] if isinstance(g, dict)])
                guest[r.choice(["name", "min", "max", "shares", "steer"])] = r.choice(wrong)
            elif kind < 0.42 and p.get("guests") and isinstance(p["guests"], list):
                p["guests"].append(r.choice([p["guests"][0], 5, {}, {"name": "zz", "min": "0"}]))
            else:
                p[r.choice(keys)] = r.choice(wrong)
        return p

    def written(self, p):
        r = self.r
        if self.chance(0.3):
            p = self.shuffled(p)
        text = json.dumps(p, ensure_ascii=self.chance(0.5), indent=r.choice([None, None, None, 1]), separators=r.choice([None, (",", ":"), (" , ", "\t: ")]))
        if self.chance(0.1):
            text = r.choice(["\n\n", " \r\n\t "]) + text + r.choice(["\n \n", "\r", " "])
        if self.chance(0.03):
            text = text[:-1] + ', "tax": 5, "tax": 6}' if text.endswith("}") and len(text) > 2 else text
        if self.chance(0.05):
            place = r.randrange(len(text) + 1)
            text = r.choice([text[:place], text[:place] + r.choice('{}[],:"0x\\\x00\x7f\u00a0') + text[place:], text + "x", text + "{}", "\ufeff" + text, "[" + text + "]",
                             "null", "5", '"a"', text.replace("1", "01", 1), text.replace('"', "'", 2), text.replace(":", ": NaN, \"z\":", 1),
                             text.replace("{", '{"d":' + "[" * 125 + "]" * 125 + ",", 1), text.replace("{", '{"d":' + "[" * 126 + "]" * 126 + ",", 1),
                             text.replace("{", '{"d":' + "[" * 127 + "]" * 127 + ",", 1), text.replace("{", '{"d":1e400,', 1), text.replace("{", '{"d":-0,', 1),
                             text.replace("{", '{"d":' + "1" * 308 + ",", 1), text.replace("{", '{"d":' + "1" * 310 + ",", 1), text.replace("{", '{"d":"\\ud800",', 1),
                             text.replace("{", '{"d":"\\ud83d\\ude00",', 1), text.replace("{", '{"d":"\\udc00\\ud800",', 1), text.replace("{", '{"d":"\t",', 1),
                             text.replace("{", '{"d":1.,', 1), text.replace("{", '{"d":.5,', 1), text.replace("{", '{"d":"\\x",', 1)])
        return text.encode("utf-8", "surrogatepass")

    # ---- domains

    def new_domain(self, name):
        r, u, frames = self.r, self.unit_kib, self.frames
        part = max(1, frames // max(1, len(self.names)))
        units = r.choice([1 + part // 2, part, 2 * part, r.randint(1, part), r.randint(1, 2 * part), r.randint(1, 3 * part)])
        if self.chance(0.1):
            units = r.choice([1, 2, r.randint(1, max(1, frames)), r.randint(1, max(1, 2 * frames)), r.randint(1, 100), self.log_uniform(1, 262144)])
        if self.is_tight and not self.chance(0.1):
            units = r.randint(part, 3 * part)
        maximum = min(TOP, units * u + r.choice([0, 0, 0, u - 1, r.randrange(u)]))
        odd = r.random()
        if odd < 0.02:
            maximum = r.choice([0, u - 1, TOP, 262144 * u, 262145 * u - 1, 262145 * u, 1 << 63])
        domain = {"name": name, "maximum": maximum, "current": r.choice([maximum, r.randint(0, maximum), maximum // 2, maximum // 2, maximum // 3]), "part": r.random(),
                  "swap": r.choice([None, 0, 0, r.randrange(1000), TOP - 5000]), "kind": r.choice(["at once", "at once", "part", "never", "back", "noisy"]),
                  "tells": r.choice(["usable", "unused", "both", "both", "both", "mixed"] + ["none"] * self.chance(0.2)), "busy": r.random() ** r.choice([1, 3])}
        if self.is_tight:
            domain["current"] = int(maximum * r.uniform(0.3, 1))
            domain["kind"] = r.choice(["at once", "at once", "at once", "at once", domain["kind"]])
            domain["busy"] = r.choice([0.0, 0.1, 0.5, 1.0])
        if self.is_lively:
            domain["tells"], domain["swap"] = r.choice(["usable", "both", "both"]), r.choice([None, 0, 0])
        return domain

    def numbers(self, d):
        """The lines of a domain."""
        r = self.r
        current, maximum = d["current"], d["maximum"]
        if self.chance(0.15):
            d["busy"] = r.choice([r.random(), r.random() ** 3, 1.0, 0.0])
        rare = 0.1 if self.is_lively else 1
        usable = max(0, current - int(current * d["busy"]) - r.randrange(max(1, self.unit_kib)))
        unused = max(0, usable - r.randrange(max(1, usable + 1))) if self.chance(0.8) else usable + r.randrange(1000)
        if self.chance(0.02 * rare):
            usable, unused = r.choice([TOP, current, current + 1, 0]), r.choice([TOP, 0, current])
        if d["swap"] is not None and self.chance(0.3):
            d["swap"] = min(TOP, max(0, d["swap"] + r.choice([1, self.unit_kib - 1, self.unit_kib, self.unit_kib + 1, -5, -d["swap"], r.randrange(10 * self.unit_kib)])))
        tells = d["tells"] if d["tells"] != "mixed" else r.choice(["usable", "unused", "both", "both", "none"])
        if self.chance(0.04 * rare):
            tells = "none"
        lines = []

        def put(key, value):
            text = str(value)
            if self.chance(0.02) and len(text) < 20:
                text = text.rjust(r.choice([20, len(text) + 1]), "0")
            if self.chance(0.02 * rare):
                lines.append((key, str(r.choice([0, 5, TOP]))))
            lines.append((key, text))
        if self.chance(0.7):
            put("state.state", 1 if self.chance(1 - 0.05 * rare) else r.choice([0, 2, 3, 5, 7, TOP]))
        if self.chance(1 - 0.015 * rare):
            put("balloon.current", current)
        if self.chance(1 - 0.015 * rare):
            put("balloon.maximum", maximum)
        if tells in ("usable", "both"):
            put("balloon.usable", usable)
        if tells in ("unused", "both"):
            put("balloon.unused", unused)
        if d["swap"] is not None and self.chance(0.9):
            put("balloon.swap_in", d["swap"])
        if self.chance(0.3):
            lines += [("balloon.rss", "-1"), ("state.reason", "x=y"), ("balloon.available", str(maximum)), ("Balloon.current", "z"), ("balloon.current ", "q"), ("", "")][:r.randint(1, 6)]
        if self.chance(0.3):
            r.shuffle(lines)
        return [b" " * r.choice([2, 2, 2, 2, 1, 9]) + f"{key}={value}".encode() for key, value in lines]

    def sample(self):
        r = self.r
        blocks = []
        for d in self.domains:
            if self.chance(0.995 if self.is_lively else 0.97):
                blocks.append([b"Domain: '" + d["name"] + b"'"] + self.numbers(d) + [b""] * r.choice([0, 1, 1, 1, 2]))
        if self.chance(0.02) and self.domains:
            d = r.choice(self.domains)
            blocks.append([b"Domain: '" + d["name"] + b"'"] + self.numbers(d))
        if self.chance(0.3):
            r.shuffle(blocks)
        lines = [line for block in blocks for line in block]
        if self.chance(0.06):
            bad = r.choice([b"error: failed", b"failed", b"  balloon.current=", b"  balloon.current=x", b"  balloon.usable=18446744073709551616", b"  balloon.unused=-1",
                            b"  balloon.swap_in=000000000000000000001", b"  state.state= 1", b"   ", b"\t", b"  balloon.current", b"Domain: 'a", b"Domain: '", b"Domain: ''", b"Domain:'a'",
                            b" --- ", b"----", b"--", b"---\r", b"\r", b"Domain: 'a' ", b"\x00", b"  \xff=1", b"  =", b"balloon.current=5", b"  balloon.maximum=1e3", b"\xff",
                            b"  balloon.maximum=18446744073709551615", b"  balloon.current=00000000000000000001", b"  state.state=01"])
            lines.insert(r.choice([0, len(lines), r.randrange(len(lines) + 1)]), bad)
        return lines

    def follow(self, orders):
        r, u = self.r, self.unit_kib
        for d in self.domains:
            order = orders.get(d["name"])
            if order is not None:
                gap = order - d["current"]
                part = {"at once": 1.0, "part": d["part"], "never": 0.0, "back": 1.0 if gap > 0 else r.choice([0.0, 0.3]), "noisy": r.uniform(-0.2, 1.1)}[d["kind"]]
                d["current"] += int(gap * part) if abs(part) != 1.0 else gap
            if self.chance(0.03):
                d["current"] += r.choice([-u, u, 1, -1])
            if self.chance(0.01):
                d["maximum"] = max(0, d["maximum"] + r.choice([-u, u, 10 * u, 1]))
            if self.chance(0.02):
                d["kind"] = r.choice(["at once", "part", "never", "back", "noisy"])
            d["current"] = min(max(0, d["current"]), TOP)
            d["maximum"] = min(d["maximum"], TOP)

    def change(self):
        r = self.r
        if self.chance(0.08) and self.domains:
            self.domains.pop(r.randrange(len(self.domains)))
        if self.chance(0.08):
            name = r.choice(self.names) if self.chance(0.7) else self.name()
            if all(name != d["name"] for d in self.domains) or self.chance(0.1):
                self.domains.append(self.new_domain(name))

    def run(self, out):
        r = self.r
        p = self.policy()
        if self.chance(0.15):
            p = self.spoiled(p)
        data = self.written(p)
        try:
            policy = reading.Policy(data + b"\n")
            host = reading.Host(policy)
        except reading.Fault:
            host = None
        shape = r.random()
        if shape < 0.02:
            out.write(data + r.choice([b"", b"\n", b"\n---", b"\n--", b"\n----\n"]))
            return
        out.write(data + b"\n---\n")
        if self.chance(0.03) and not self.is_lively:
            self.domains = [self.new_domain(b"d%d" % i) for i in range(r.choice([250, 255, 256, 257, 260]))]
        for sample in range(self.count):
            lines = self.sample()
            text = b"".join(line + b"\n" for line in lines)
            if sample == self.count - 1 and self.chance(0.2):
                out.write(text + r.choice([b"", b"---", b"--", b"  balloon.cur", b"----\n", b"--- \n"]))
                return
            out.write(text + b"---\n")
            orders = {}
            if host:
                try:
                    rows = host.decide(reading.domains_of(lines))[3]
                    orders = {row.name: row.order for row in rows if row.order is not None}
                except reading.Bad:
                    pass
            self.follow(orders)
            self.change()


if __name__ == "__main__":
    if len(sys.argv) != 3:
        sys.exit("usage: made.py SEED COUNT")
    Maker(int(sys.argv[1]), int(sys.argv[2])).run(sys.stdout.buffer)

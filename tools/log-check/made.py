#!/usr/bin/env python3
"""Makes a host log for vmlog: made.py SEED COUNT writes a policy and COUNT samples of all shapes to standard output; made.py limit NAME a log
that ends at a limit or right in front of it.

The same words make the same bytes. Policies, samples and domains are those of ../steer-check/made.py, but that more domains come, go, come
back with another size, and are left alone for a while.
"""
import importlib.util
import random
import sys
from pathlib import Path


def module_at(folder, name):
    path = Path(__file__).resolve().parent.parent / folder / f"{name}.py"
    spec = importlib.util.spec_from_file_location(f"{folder}_{name}".replace("-", "_"), path)
    module = importlib.util.module_from_spec(spec)
    spec.loader.exec_module(module)
    return module


reading = module_at("log-check", "reading")
MOST_BYTES = reading.MOST_BYTES


class Maker(module_at("steer-check", "made").Maker):
    def __init__(self, seed, count):
        super().__init__(seed, count)
        self.away = []
        self.restless = self.r.choice([0.0, 0.05, 0.2, 0.5])

    def change(self):
        super().change()
        if self.domains and self.chance(self.restless):
            self.away.append(self.domains.pop(self.r.randrange(len(self.domains))))
        if self.away and self.chance(self.restless):
            domain = self.away.pop(self.r.randrange(len(self.away)))
            if all(domain["name"] != other["name"] for other in self.domains):
                if self.chance(0.2):
                    domain = self.new_domain(domain["name"])
                self.domains.insert(self.r.randint(0, len(self.domains)), domain)
        if self.domains and self.chance(self.restless / 4):
            domain = self.r.choice(self.domains)
            domain["tells"] = "none" if domain["tells"] != "none" else "both"


def every_of(seed):
    """The words of a seed."""
    r = random.Random(seed)
    return r.choice([[], [], ["--every", "1"], ["--every", "2"], ["--every", "3"], ["--every", str(r.randint(1, 12))], ["--every", "10000"]])


# ---- limits

def domain(name, used, size, unit=1000, extra=""):
    return f"Domain: '{name}'\n  balloon.current={size * unit}\n  balloon.maximum={size * unit}\n  balloon.usable={(size - used) * unit}\n{extra}"


POLICY = '{"version": 1, "unit": "1000", "memory": "100000000"}'
BAD = "failed\n"


def log(samples):
    """Of samples that are texts, or lists of (name, used, size)."""
    parts = [POLICY, "\n---\n"]
    for sample in samples:
        parts.append(sample if isinstance(sample, str) else "".join(domain(*one) for one in sample))
        parts.append("---\n")
    return "".join(parts).encode()


def little(names, epochs):
    """Of guests that give up a page in nearly each epoch."""
    return [[(name, 384 - epoch % 285, 400) for name in names] for epoch in range(epochs)]


def beside_b(uses):
    """Of a guest that is there where it has a use, and one that always is."""
    return [[("b", 2, 9)] + ([("a", use, 60000)] if use is not None else []) for use in uses]


def limits():
    """(name, words, a call that makes the log)."""
    for every in 1, 3:
        for more in -1, 0, 1, 2:
            count = 10000 * every + more
            yield (f"epochs-{every}{more:+}", ["--every", str(every)],
                   lambda count=count: log([[("a", n % 7, 10), ("b", 3, 9)][: 1 + n % 2] for n in range(count)]))
    for every in 1, 2, 5:
        for count in 255, 256, 257, 300:
            names = [f"n{n * 7919 % 1000}" for n in range(count)]
            yield (f"guests-{every}-{count}", ["--every", str(every)],
                   lambda names=names: log([[(name, 5, 9) for name in names[at: at + 41]] for at in range(0, len(names), 40)] + [[("n0", 4, 9)]]))
    for more in -1, 0, 1:
        for back in 1, 5:
            # 20 epochs of 50000 steps but for the last, which makes it a million and so many more
            uses = [49999] * (20 - back) + [49999 + more] + [49999] * (back - 1)
            yield f"steps{more:+}-{back}", [], lambda uses=uses: log([[("b", 2, 9), ("a", use, 60000)] for use in uses])
        # 950000 steps, then so many epochs without it, then it is there again, for the last 41000
        uses = [49999] * 18 + [5] + [None] * (9000 + more) + [40999]
        yield (f"steps-away{more:+}", [],
               lambda uses=uses: log(beside_b(uses)))
        yield f"steps-stays-away{more:+}", [], lambda uses=uses: log(beside_b(uses[:-1]))
    for every in 1, 2, 4:
        for use in 65534, 65535, 65536:
            samples = [[("a", 5, 70000)], BAD, [("a", 60000, 70000)], [("a", use, 70000)], BAD, [("a", 1, 70000)], [("a", 65536, 70000)], BAD]
            yield f"epoch-steps-{every}-{use}", ["--every", str(every)], lambda samples=samples: log(samples)
    # two at one sample: the first in their order is told
    many = [(f"n{n}", 5, 9) for n in range(200)]
    yield "guests-and-epoch-steps", [], lambda: log([many, [(f"m{n}", 65536, 70000) for n in range(57)]])
    yield "steps-and-epoch-steps", [], lambda: log([[("a", 65535, 70000)]] * 15 + [[("a", 65536, 70000)]])
    yield "epochs-and-guests", [], lambda: log([[("a", 1, 9)]] * 10000 + [[(f"m{n}", 6, 9) for n in range(256)]])
    yield from byte_limits()


def byte_limits():
    """Of many epochs of many guests."""
    names = [f"guest-{n:03}" for n in range(256)]
    yield "bytes", [], lambda: log(little(names, 2800))
    for more in -1, 0, 1:
        for every in 1, 2:
            yield f"bytes{more:+}-{every}", ["--every", str(every)], lambda more=more, every=every: repeated(exact(names, more), every)


def exact(names, more):
    """Samples whose text has the most bytes and so many more with the last one, each an epoch.

    All guests are there at the beginning and, to fit it, at the end; in between they are where a step more is needed.
    """
    full, rare = 1200, 8797
    samples = little(names, full) + [[(name, 1, 400) for name in names]] + [[(names[0], 1, 400)] for _ in range(rare)] + [[(name, 1, 400) for name in names]]
    wanted = MOST_BYTES + more - length(samples)
    for place in range(wanted // 8):
        samples[full + 1 + place // (len(names) - 1)].append((names[1 + place % (len(names) - 1)], 1, 400))
    samples[-1][:wanted % 8] = [(name, 10, 400) for name in names[:wanted % 8]]
    assert length(samples) == MOST_BYTES + more
    return samples


def length(samples):
    """The bytes of the text of these."""
    taken = reading.Log(reading.steer.Policy(POLICY.encode()), 1)
    taken.may_be_long = lambda: False
    for sample in samples:
        taken.take([(name.encode(), [None, size * 1000, size * 1000, (size - used) * 1000, None, None]) for name, used, size in sample])
    return len(taken.text())


def repeated(samples, every):
    """Each sample that often, but for the last."""
    return log([sample for sample in samples[:-1] for _ in range(every)] + samples[-1:])


def main(words):
    if len(words) == 2 and words[0] == "limit":
        for name, _, make in limits():
            if name == words[1]:
                sys.stdout.buffer.write(make())
                return
        sys.exit(f"made.py: no limit {words[1]}")
    if len(words) != 2:
        sys.exit("usage: made.py SEED COUNT | made.py limit NAME")
    Maker(int(words[0]), int(words[1])).run(sys.stdout.buffer)


if __name__ == "__main__":
    main(sys.argv[1:])

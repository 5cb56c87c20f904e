#!/usr/bin/env python3
"""Compares a program with reading.py on made streams: compare.py PROGRAM FIRST LAST [COUNT]

For each SEED from FIRST to LAST made.py makes a stream of COUNT samples (default: by the seed, 1 to 60); without a word and with --csv
the program's standard output, standard error and status have to be those of reading.py. A stream on which they differ stays as
differs-SEED.log beside this script. In place of seeds `limits` tries streams at the limit of bytes.
"""
import io
import subprocess
import sys
from pathlib import Path

HERE = Path(__file__).resolve().parent
sys.path.insert(0, str(HERE))
import made  # noqa: E402

READING = [sys.executable, str(HERE / "reading.py")]


def ran(words, data):
    run = subprocess.run(words, input=data, capture_output=True)
    return run.stdout, run.stderr, run.returncode


def compare(program, name, data):
    for words in [], ["--csv"]:
        expected, found = ran(READING + words, data), ran([program] + words, data)
        if expected != found:
            (HERE / f"differs-{name}.log").write_bytes(data)
            what = [kind for kind, a, b in zip(["output", "said", "status"], expected, found) if a != b]
            print(f"DIFFERS: {name} {' '.join(words)}: {', '.join(what)}; status {expected[2]} / {found[2]}, said {expected[1]!r} / {found[1]!r}")
            for number, (a, b) in enumerate(zip(expected[0].splitlines(), found[0].splitlines()), 1):
                if a != b:
                    print(f"   line {number}: {a!r} / {b!r}")
                    break
            return False
    return True


def streams(words):
    if words[0] == "limits":
        most, policy = 16777216, b'{"version":1,"memory":"100MiB"}\n'
        good = b"Domain: 'a'\n  balloon.current=20480\n  balloon.maximum=40960\n  balloon.usable=0\n"
        def filler(count):
            """Lines of that many bytes, which are none of a key that is read."""
            lines = (b"  x=" + b"y" * 995 + b"\n") * (count // 1000)
            return lines + b"\n" * (count % 1000)
        for more in (-1, 0, 1):
            yield f"policy{more:+}", policy[:-1] + b" " * (most - len(policy) + more) + b"\n---\n" + good + b"---\n"
            yield f"sample{more:+}", policy + b"---\n" + good + b"---\n" + good + filler(most - len(good) + more) + b"---\n" + good + b"---\n"
            yield f"unended{more:+}", policy + b"---\n" + good + b"---\n" + good + filler(most - len(good) + more)
            yield f"line{more:+}", policy + b"---\n" + good + b"---\n" + good + b"  x=" + b"y" * (most - len(good) - 5 + more) + b"\n---\n"
            yield f"mark{more:+}", policy + b"---\n" + good + filler(most - len(good) - 3 + more) + b"---"
            yield f"text{more:+}", b"x" * (most + more)
        return
    for seed in range(int(words[0]), int(words[1]) + 1):
        sink = io.BytesIO()
        made.Maker(seed, int(words[2]) if len(words) > 2 else 1 + seed % 60).run(sink)
        yield str(seed), sink.getvalue()


def main():
    program, words = sys.argv[1], sys.argv[2:]
    tried = [compare(program, name, data) for name, data in streams(words)]
    print(f"{len(tried)} streams, {tried.count(False)} differ")
    return 1 if False in tried else 0


if __name__ == "__main__":
    sys.exit(main())

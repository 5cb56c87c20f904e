#!/usr/bin/env python3
"""Compares a program with reading.py: compare.py PROGRAM FIRST LAST [COUNT] | limits [NAME..] | examples FOLDER

For each SEED from FIRST to LAST made.py makes a log of COUNT samples (default: by the seed, 1 to 60) and its words; `limits` are its logs
that end at a limit or right in front of it; a FOLDER has NAME.log, NAME.words, NAME.text, NAME.said and NAME.status. The program's standard
output, standard error and status have to be those of reading.py, and in a FOLDER those of the files. A log on which they differ stays as
differs-NAME.log beside this script.
"""
import io
import subprocess
import sys
from pathlib import Path

HERE = Path(__file__).resolve().parent
sys.path.insert(0, str(HERE))
import made  # noqa: E402

READING = [sys.executable, str(HERE / "reading.py")]


def ran(words, data):
    run = subprocess.run(words, input=data, capture_output=True)
    return run.stdout, run.stderr, run.returncode


def first_difference(a, b):
    at = next((place for place, (one, other) in enumerate(zip(a, b)) if one != other), min(len(a), len(b)))
    return f"   byte {at}: {a[max(0, at - 40): at + 40]!r} / {b[max(0, at - 40): at + 40]!r}"


def compare(program, name, words, data, wanted=None):
    expected = ran(READING + words, data)
    for found, of in [(ran([program] + words, data), "program"), (wanted or expected, "files")]:
        if expected != found:
            (HERE / f"differs-{name}.log").write_bytes(data)
            what = [kind for kind, a, b in zip(["text", "said", "status"], expected, found) if a != b]
            print(f"DIFFERS: {name} {' '.join(words)}: {', '.join(what)} of the {of}; status {expected[2]} / {found[2]}, said {expected[1]!r} / {found[1]!r}")
            print(first_difference(expected[0], found[0]))
            return False
    return True


def logs(words):
    """(name, words, log, what is wanted)"""
    if words[0] == "limits":
        for name, options, make in made.limits():
            if not words[1:] or name in words[1:]:
                yield name, options, make(), None
    elif words[0] == "examples":
        for path in sorted(Path(words[1]).glob("*.log")):
            wanted = path.with_suffix(".text").read_bytes(), path.with_suffix(".said").read_bytes(), int(path.with_suffix(".status").read_text())
            yield path.stem, path.with_suffix(".words").read_text().split(), path.read_bytes(), wanted
    else:
        for seed in range(int(words[0]), int(words[1]) + 1):
            sink = io.BytesIO()
            made.Maker(seed, int(words[2]) if len(words) > 2 else 1 + seed % 60).run(sink)
            yield str(seed), made.every_of(seed), sink.getvalue(), None


def main():
    program, words = sys.argv[1], sys.argv[2:]
    tried = [compare(program, *one) for one in logs(words)]
    print(f"{len(tried)} logs, {tried.count(False)} differ")
    return 1 if False in tried else 0


if __name__ == "__main__":
    sys.exit(main())

#!/usr/bin/env python3
"""Compares a vmsweep with reading.py: compare.py VMSWEEP VMMEM [--jobs N] [--also guests] made FIRST LAST | drawn FIRST LAST | examples FOLDER [NAME..] |
refused

`made` tries the texts and words that made.py makes of the seeds FIRST to LAST, and `drawn` those that it makes of them to be drawn. A FOLDER has NAME.json, NAME.words and NAME.csv; the reading's
tables have to be those of the files too. `refused` tries words that are refused, without running anything. With `--also guests` the words that
change guests are there as well (--min-percent, --min, --shares, --seeds). Tables have to agree byte by byte, but where the reports of VMMEM leave
a value open it has to be between the two that the reading gives, or one of several; statuses and what is said have to agree too, as far as
FORMATS has the words of it. What differs stays beside this script as differs-NAME.json and differs-NAME.words. N processes are at work (2).
"""
import itertools
import json
import multiprocessing
import shlex
import subprocess
import sys
import time
from collections import Counter
from pathlib import Path

HERE = Path(__file__).resolve().parent
sys.path.insert(0, str(HERE))
import drawing  # noqa: E402
import made  # noqa: E402
import reading  # noqa: E402
import runs  # noqa: E402


def ran(program, words, data):
    run = subprocess.run([program] + [word.encode("utf-8", "surrogateescape") for word in words], input=data, capture_output=True)
    return run.returncode, run.stdout.decode(), run.stderr.decode()


def is_field(found, expected):
    """Whether a field is the one of the reading, or is between its two, or one of its several."""
    if " or " in expected:
        return found in expected.split(" or ")
    if found == expected or " to " not in expected:
        return found == expected
    least, most = expected.split(" to ")
    return found in (least, most) or found.isdigit() and least.isdigit() and int(least) <= int(found) <= int(most)


def differences(expected, found):
    """What differs between what the reading has and a status, a table and what is said."""
    status, table, said, _ = expected
    if status != found[0]:
        yield f"status {status} / {found[0]}, said {said!r} / {found[2]!r}"
        return
    if said != found[2] if said is not None else not found[2]:
        yield f"said {said!r} / {found[2]!r}"
    if said is None and status == 1 and not (found[2].startswith("vmsweep: ") and found[2].count("\n") == 1):
        yield f"said {found[2]!r}"
    rows = found[1].split("\r\n")
    if rows[-1] or len(rows) - 1 != len(table) or "\n" in "".join(rows):
        yield f"{len(table)} / {len(rows) - 1} lines"
        return
    for number, (fields, row) in enumerate(zip(table, rows)):
        for name, wanted, field in itertools.zip_longest(table[0], fields, row.split(",")):
            if wanted is None or field is None or not is_field(field, wanted):
                yield f"line {number}, {name}: {wanted} / {field}"


def drawn(vmsweep, words, data, table, has_guests):
    """What the drawing of words is for a table (1: drawn, 0: refused, None: not asked for), and what differs in it."""
    if "--guests" in words or "--svg" in words:
        return None, []
    found = ran(vmsweep, words + ["--svg"], data)
    try:
        asked = reading.Words(words + ["--svg"], has_guests)
    except reading.Refused as refused:
        return 0, list(differences((2, [], refused.said, 0), found))
    root = json.loads(data)
    page = root.get("page", 4) if root["version"] == 3 else 4
    wanted = drawing.drawing_of([row.split(",") for row in table.split("\r\n")[:-1]], page)
    if found == (0, wanted, reading.progress(asked) if asked.progress else ""):
        return 1, []
    at = next((place for place, (one, other) in enumerate(zip(wanted, found[1])) if one != other), min(len(wanted), len(found[1])))
    return 1, [f"drawing: status {found[0]}, said {found[2]!r}, byte {at}: {wanted[at - 40:at + 40]!r} / {found[1][at - 40:at + 40]!r}"]


def compare(task):
    """How one text and its words come out: the name, what differs, and counts."""
    vmsweep, vmmem, name, words, data, table, has_guests, mapped = task
    found = ran(vmsweep, words, data)
    counts = Counter({"texts": 1, f"status {found[0]}": 1})
    try:
        expected = reading.sweep(vmmem, data, words, mapped, has_guests)
        differ = list(differences(expected, found))
        if found[0] == 0:
            is_drawn, different = drawn(vmsweep, words, data, found[1], has_guests)
            differ += different
            counts["drawings"] += is_drawn == 1
            counts["refused drawings"] += is_drawn == 0
        if table is not None:
            differ += [f"{what} (of the file)" for what in differences(expected, (0, table, expected[2] or ""))]
        counts.update({"records": max(0, len(expected[1]) - 1), "fields open": sum(" to " in field or " or " in field for fields in expected[1][1:] for field in fields),
                       "runs of vmmem": expected[3]})
    except runs.Wrong as wrong:
        differ = [f"vmmem: {wrong}"]
    if differ:
        (HERE / f"differs-{name}.json").write_bytes(data)
        (HERE / f"differs-{name}.words").write_text("\n".join(words) + "\n", errors="surrogateescape")
    counts["differ"] += bool(differ)
    return name, differ, counts


def tasks(words, has_guests):
    """(name, words, text, table or None)"""
    if words[0] in ("made", "drawn"):
        is_drawn = words[0] == "drawn"
        for seed in range(int(words[1]), int(words[2]) + 1):
            data, given = made.made(seed, has_guests or is_drawn, is_drawn)
            yield f"{seed}{'d' if is_drawn else 'g' * has_guests}", given, data, None
    elif words[0] == "examples":
        for path in sorted(Path(words[1]).glob("*.words")):
            if not words[2:] or path.stem in words[2:]:
                with open(path.with_suffix(".csv"), newline="") as table:
                    yield path.stem, path.read_text().split(), path.with_suffix(".json").read_bytes(), table.read()
    else:
        files = ["refused.words"] + ["refused-guests.words"] * has_guests
        cases = [line for name in files for line in (HERE / name).read_text(encoding="utf-8").splitlines() if not line.startswith("#")]
        for number, case in enumerate(cases, 1):
            yield f"refused-{number}", shlex.split(case), b"no configuration", None


def results(pool, programs, words, has_guests):
    if words[0] == "examples":
        return [compare((*programs, *each, has_guests, pool.imap)) for each in tasks(words, has_guests)]
    return pool.imap(compare, [(*programs, *each, has_guests, map) for each in tasks(words, has_guests)])


def main(words):
    if len(words) < 3:
        print(__doc__)
        return 0 if words in (["-h"], ["--help"]) else 2
    programs, words, jobs, has_guests = words[:2], words[2:], 2, False
    while words[0] in ("--jobs", "--also"):
        jobs, has_guests = (int(words[1]), has_guests) if words[0] == "--jobs" else (jobs, words[1] == "guests")
        words = words[2:]
    has_guests = has_guests or words[0] == "drawn"
    begin, totals = time.time(), Counter()
    with multiprocessing.Pool(jobs) as pool:
        for name, differ, counts in results(pool, programs, words, has_guests):
            totals.update(counts)
            if differ:
                print(f"DIFFERS: {name}", *differ[:8], sep="\n   ", flush=True)
            elif words[0] == "examples":
                print(f"{name}: " + ", ".join(f"{counts[key]} {key}" for key in ("records", "fields open", "runs of vmmem")), flush=True)
    print(", ".join(f"{name}: {count}" for name, count in sorted(totals.items())) + f"; {time.time() - begin:.0f} seconds")
    return 1 if totals["differ"] else 0


if __name__ == "__main__":
    sys.exit(main(sys.argv[1:]))

"""What a run tells, by the reports of a vmmem alone; it shares no code with it.

A report says what each boundary did and how the guests stand at the end. The rest comes from reports of changed texts:

- The text is made one of version 3, in which guests have names that look like no other line. Its report, with the old names put back, has
  to be that of the text in its own version.
- A guest that starts several times becomes as many guests, one behind the other, with one start each: a life. Refused lines are left out.
- How lives and free frames stand after epoch K: the report of K + 1 epochs has it at its end. Frames move at boundaries alone, so that is
  what a boundary leaves, too, but for what is in swap.
- What is in swap within epoch K: a life's trace is cut in front of a touch, and ends with a yield. In front of its first one this is what
  the boundary left. Where the life stalled in an earlier epoch on the page of that touch, the step can't be cut off: in its place stands
  the deflate that the stall posts, and a yield.
- Unlike a stall a yield counts for the sampler. Where a period would end by that, what is in swap after the devices are served comes from a
  run with the yield in which each guest gets all that it holds as its minimum. What the boundary sends out are the frames that the life
  gives up and that aren't spare. How many these are is known where it is granted none, or none is taken to make room; how many are spare
  comes from a run in which another guest's start takes all but one of its frames. Elsewhere it is known within one page.
- Which touches sent a page out (a demand, which no report has): more is in swap after it, by one page, or as much, and its own page was
  there in front of it. The first is a touch of an absent page without a spare frame. For the second the touch is replaced by a raw
  inflate of its page, and at the next boundary each guest gets all that it holds as its minimum, so that the boundary sends nothing out:
  less is in swap then than without the inflate exactly where the page was there. After an epoch at whose end nothing is in swap no touch
  has sent a page out.
"""
import json
import re
import subprocess

STATES = ["high", "soft", "hard", "low"]
MOST_RAW, MOST_SWAP = 16, 67108864


class Wrong(Exception):
    """Two reports of vmmem that have to agree don't, or a report isn't one."""


# ---- texts

TOP = [("frames", None), ("swap", 0), ("overhead", 0), ("tax", None), ("percent", None), ("page_rate", 16), ("quantum", 100), ("epochs", None)]
GUEST = [("name", None), ("size", None), ("min", None), ("shares", 1000), ("samples", 100), ("period", 1000), ("rate", 16), ("seed", 0),
         ("stream", 0), ("autostart", True), ("trace", [])]


def third(root):
    """The text of version 3 that a configuration means, with all its keys."""
    version = root["version"]
    scale = 100 if version == 1 else 1
    text = {"version": 3, **{key: root.get(key, default) for key, default in TOP}}
    text["tax"] = root["tax"] * scale if "tax" in root else 7500
    text["percent"] = [part * scale for part in root["percent"]] if "percent" in root else [600, 400, 200, 100]
    text["rebalance"], text["page"] = (root.get("rebalance", 0), root.get("page", 4)) if version == 3 else (0, 4)
    text["guests"] = []
    for guest in root["guests"]:
        meant = {key: guest.get(key, default) for key, default in GUEST}
        meant["tell"] = guest.get("tell", True) if version >= 2 else True
        meant["driver"] = guest.get("driver", "own") if version == 3 else "own"
        text["guests"].append(meant)
    text["commands"] = [{"at": command["at"], "line": command["line"]} for command in root.get("commands", [])]
    return text


def domain_at(words):
    """Which word of a command line is its domain, None where the line is no command."""
    forms = {("start", 2): 1, ("destroy", 2): 1, ("dommemstat", 2): 1, ("setmem", 3): 1, ("memshares", 3): 1}
    place = forms.get((words[0], len(words))) if words else None
    if words and words[0] == "memtune":
        is_first = words[1:] and words[1].startswith("--min-guarantee")
        option = words[1 if is_first else 2] if len(words) > 2 else ""
        if option == "--min-guarantee" and len(words) == 4:
            place = 3 if is_first else 1
        elif option.startswith("--min-guarantee=") and len(words) == 3:
            place = 2 if is_first else 1
    return place if place is not None and not words[place].startswith("-") else None


def named(line, names):
    """A line with its domain named anew, and its words' first and domain's position, where it is a guest's."""
    words = [word for word in line.split(" ") if word]
    place = domain_at(words)
    if place is None:
        return line, None, None
    position = names.index(words[place]) if words[place] in names else None
    words[place] = "nobody" if position is None else f"g{position}"
    return " ".join(words), words[0], position


def single_steps(trace):
    """The steps that the texts of a trace stand for, each as the text of one."""
    steps = []
    for text in trace:
        words = text.split(" ")
        if words[0] in "tf" and len(words) == 3:
            steps += [f"t {page} 1" if words[0] == "t" else f"f {page}" for page in range(int(words[1]), int(words[1]) + int(words[2]))]
        else:
            steps.append(text)
    return steps


def touched(step):
    """The page that a step touches, or None."""
    return int(step.split(" ")[1]) if step[0] in "rwt" else None


# ---- reports

class Epoch:
    """What a report says of one, with guests by their numbers; counts are lists of (guest, count)."""

    def __init__(self):
        self.lines, self.state, self.free = [], None, None
        self.counts = {"revoke": [], "page": [], "grant": [], "rebalance": []}
        self.blocked, self.stalled, self.reads = [], {}, []


class Report:
    """Of a text whose guests have the names g0, g1 and so on; `lines` are those that each epoch obeys."""

    def __init__(self, text, lines):
        self.rest = text.split("\n")[::-1]
        if self.rest[0] != "":
            raise Wrong("a report that doesn't end with a line")
        del self.rest[0]
        self.epochs = [self.epoch(number, obeyed) for number, obeyed in enumerate(lines)]
        self.want("end")
        self.stands = {}
        while self.rest and self.rest[-1].startswith("g"):
            words = self.rest.pop().split(" ")
            if words[1::2] != ["target", "held", "swapped", "balloon", "active", "bad", "done"]:
                raise Wrong(f"an end: {words}")
            self.stands[number_of(words[0])] = dict(zip(words[1::2], map(int, words[2::2])))
        held, free, overhead = map(int, re.fullmatch(r"machine (\d+) held (\d+) free (\d+) overhead (\d+)", self.rest.pop()).group(2, 3, 4))
        self.free, self.held, self.overhead = free, held, overhead
        if self.rest:
            raise Wrong(f"lines behind the end: {self.rest[-1]}")

    def want(self, line):
        if not self.rest or self.rest.pop() != line:
            raise Wrong(f"a report without {line!r} where it has to be")

    def taken(self, word, pieces):
        """The following lines that begin with a word, as lists of words."""
        found = []
        while self.rest and self.rest[-1].startswith(word + " "):
            words = self.rest.pop().split(" ")
            if len(words) != pieces:
                raise Wrong(f"a line {word} of {len(words)} words")
            found.append(words)
        return found

    def counted(self, word):
        return [(number_of(words[1]), int(words[2])) for words in self.taken(word, 3)]

    def epoch(self, number, obeyed):
        epoch = Epoch()
        self.want(f"epoch {number}")
        for line in obeyed:
            self.want(f"> {line}")
            revoked = self.counted("revoke")
            answer = [self.rest.pop()]
            while answer[0].startswith("actual ") and not answer[-1].startswith("rss "):
                answer.append(self.rest.pop())
            epoch.lines.append((line, revoked, answer))
        words = self.rest.pop().split(" ")
        if words[::2] != ["state", "free"] or words[1] not in STATES:
            raise Wrong(f"a state: {words}")
        epoch.state, epoch.free = words[1], int(words[3])
        for word in epoch.counts:
            epoch.counts[word] = self.counted(word)
        epoch.blocked = [number_of(words[1]) for words in self.taken("block", 2)]
        while self.rest and re.match(r"g\d+ (r|stall) ", self.rest[-1]):
            words = self.rest.pop().split(" ")
            if words[1] == "stall":
                epoch.stalled[number_of(words[0])] = int(words[2])
            epoch.reads.append((number_of(words[0]), " ".join(words[1:])))
        return epoch

    def told(self, names, lines, frames):
        """The report with other names and lines."""
        text = []
        for number, (epoch, obeyed) in enumerate(zip(self.epochs, lines)):
            text.append(f"epoch {number}")
            for line, (_, revoked, answer) in zip(obeyed, epoch.lines):
                text += [f"> {line}"] + [f"revoke {names[guest]} {count}" for guest, count in revoked] + answer
            text.append(f"state {epoch.state} free {epoch.free}")
            text += [f"{word} {names[guest]} {count}" for word, counts in epoch.counts.items() for guest, count in counts]
            text += [f"block {names[guest]}" for guest in epoch.blocked]
            text += [f"{names[guest]} {words}" for guest, words in epoch.reads]
        text.append("end")
        text += [" ".join([names[guest]] + [f"{key} {value}" for key, value in stands.items()]) for guest, stands in self.stands.items()]
        text.append(f"machine {frames} held {self.held} free {self.free} overhead {self.overhead}")
        return "\n".join(text) + "\n"


def number_of(name):
    match = re.fullmatch(r"g(\d+)", name)
    if match is None:
        raise Wrong(f"a name of no guest: {name}")
    return int(match[1])


class Program:
    """A built vmmem; `count` says how often it ran."""

    def __init__(self, path):
        self.path, self.count = path, 0

    def answers(self, data):
        """Status, standard output and standard error."""
        self.count += 1
        run = subprocess.run([self.path], input=data, capture_output=True)
        return run.returncode, run.stdout, run.stderr

    def report(self, text):
        status, output, said = self.answers(json.dumps(text).encode())
        if status:
            raise Wrong(f"status {status} of a changed text, {said!r}: {json.dumps(text)[:2000]}")
        return output.decode()


# ---- a run

class Life:
    """A guest from a start to its end: `first` is its first epoch, `past` the one at whose boundary it ended."""

    def __init__(self, guest, config, first):
        self.guest, self.config, self.first, self.past = guest, config, first, None
        self.steps = single_steps(config["trace"])
        self.after = {}
        self.executed = 0
        self.waits_from, self.waits_for = None, None

    def runs_in(self, epoch):
        return self.first <= epoch and (self.past is None or epoch < self.past)

    def whole(self):
        """The trace as far as it can matter once the life is over, or in the epoch behind those that are known."""
        return self.steps[:self.after[max(self.after)]["done"] + 1] if self.after else []

    def done(self, epoch):
        """The steps executed before an epoch."""
        return 0 if epoch == self.first else self.after[epoch - 1]["done"]


class Run:
    """A run of a text of version 3, and what it tells: of each guest, and of the whole.

    Numbers that aren't known exactly are pairs of the least and the greatest that they can be: all of `evicted` and `most`.
    """

    def __init__(self, program, text):
        self.program, self.text = program, text
        names = [guest["name"] for guest in text["guests"]]
        self.own_lines = self.by_epoch(text["commands"], [f"start {guest['name']}" for guest in text["guests"] if guest["autostart"]])
        renamed = [[named(line, names) for line in lines] for lines in self.own_lines]
        guests = [{**guest, "name": f"g{number}"} for number, guest in enumerate(text["guests"])]
        lines = [{"at": command["at"], "line": named(command["line"], names)[0]} for command in text["commands"]]
        self.report = Report(program.report({**text, "guests": guests, "commands": lines}), [[line for line, _, _ in each] for each in renamed])
        self.told = self.report.told(names, self.own_lines, text["frames"])
        self.lives, self.obeyed = [], []
        self.live(renamed)
        self.stand()
        self.swaps = [self.swapped_in(epoch) for epoch in range(text["epochs"])]

    def by_epoch(self, commands, first):
        lines = [[] for _ in range(self.text["epochs"])]
        if lines:
            lines[0] += first
        for command in commands:
            if command["at"] < len(lines):
                lines[command["at"]].append(command["line"])
        return lines

    # ---- lives

    def live(self, renamed):
        """Finds the lives, and the lines that were obeyed, as (epoch, life, words)."""
        current = {}
        for epoch, (lines, told) in enumerate(zip(renamed, self.report.epochs)):
            for (line, word, guest), (_, _, answer) in zip(lines, told.lines):
                if answer != ["ok"]:
                    continue
                if word == "start":
                    current[guest] = Life(guest, self.text["guests"][guest], epoch)
                    self.lives.append(current[guest])
                elif word == "destroy":
                    current[guest].past = epoch
                self.obeyed.append((epoch, current[guest], line))
        self.lives.sort(key=lambda life: life.guest)
        self.running = {life.guest: life for life in self.lives if life.past is None}

    def life_text(self, epochs, lives, traces, last=()):
        """A text of these lives, with the lines obeyed up to its last epoch, or in that one others in their place."""
        place = {id(life): number for number, life in enumerate(lives)}
        guests = [{**life.config, "name": f"g{number}", "autostart": False, "trace": trace}
                  for number, (life, trace) in enumerate(zip(lives, traces))]
        lines = []
        for epoch, life, line in self.obeyed:
            if epoch < epochs - bool(last):
                lines.append({"at": epoch, "line": re.sub(rf"(?<= )g{life.guest}(?= |$)", f"g{place[id(life)]}", line, count=1)})
        lines += [{"at": epochs - 1, "line": line} for line in last]
        return {**self.text, "swap": MOST_SWAP, "epochs": epochs, "guests": guests, "commands": lines}

    def life_report(self, text):
        lines = [[each["line"] for each in text["commands"] if each["at"] == epoch] for epoch in range(text["epochs"])]
        return Report(self.program.report(text), lines)

    def stand(self):
        """How lives stand after each epoch, and how many frames are free."""
        self.free = []
        for epoch in range(self.text["epochs"]):
            lives = [life for life in self.lives if life.first <= epoch]
            report = self.life_report(self.life_text(epoch + 1, lives, [life.config["trace"] for life in lives]))
            self.check(report, lives, epoch)
            self.free.append(report.free)
            for number, stands in report.stands.items():
                lives[number].after[epoch] = stands

    def check(self, report, lives, last):
        """Epochs of lives have to be those of the run."""
        for number in range(last + 1):
            found, told = report.epochs[number], self.report.epochs[number]

            def of_lives(counts):
                return [(lives[place].guest, what) for place, what in counts]

            if ([found.state, found.free, [lives[place].guest for place in found.blocked], of_lives(found.reads)]
                    != [told.state, told.free, told.blocked, told.reads]
                    or any(of_lives(found.counts[word]) != told.counts[word] for word in told.counts)):
                raise Wrong(f"epoch {number} of lives is another")
        if last + 1 == self.text["epochs"] and [lives[place].guest for place in report.stands] != list(self.report.stands):
            raise Wrong("other lives at the end")

    # ---- what is in swap within an epoch

    def swapped_in(self, epoch):
        """Of each life that runs in an epoch what is in swap after the boundary, as a pair, and what its touches sent out, as a pair."""
        told = self.report.epochs[epoch]
        stops = {}
        for life in self.lives:
            if life.runs_in(epoch):
                stops[life] = Stops(self, life, epoch)
        for life in stops:
            life.executed += 0 if life.guest in told.blocked else stops[life].length if life.guest in told.stalled else self.text["quantum"]
        self.find(stops, epoch)
        self.settle(stops, epoch)
        for stop in stops.values():
            stop.guess()
        self.probe(stops, epoch)
        result = {life: stop.result() for life, stop in stops.items()}
        for life, stop in stops.items():
            if life.guest in told.stalled:
                life.waits_for = told.stalled[life.guest] if life.waits_for is None or stop.length else -1
                life.waits_from = (stop.length, life.executed, stop.raws())
            elif life.guest not in told.blocked:
                life.waits_for = None
        return result

    @staticmethod
    def traces_at(lives, stops, ends):
        """The traces of lives that end in an epoch as `ends` says, a function of its stops."""
        return [ends(stops[life]) if life in stops else life.whole() for life in lives]

    def find(self, stops, epoch):
        """What is in swap in front of each touch."""
        lives = [life for life in self.lives if life.first <= epoch]
        for count in range(max((stop.wanted() for stop in stops.values()), default=0)):
            report = self.life_report(self.life_text(epoch + 1, lives, self.traces_at(lives, stops, lambda stop: stop.cut(count))))
            for number, stands in report.stands.items():
                stop = stops[lives[number]]
                if count < stop.wanted():
                    stop.swapped[count] = stands["swapped"]

    def kept(self, number, life, epoch):
        """Lines by which a life keeps all that it held after an epoch."""
        kib = self.text["page"]
        return [f"setmem g{number} {life.config['size'] * kib}k", f"memtune g{number} --min-guarantee {life.after[epoch]['held'] * kib}k"]

    def obeying(self, text):
        """The report of a text, where all lines of its last epoch have to be obeyed."""
        report = self.life_report(text)
        if any(answer[0].startswith("error") for _, _, answer in report.epochs[-1].lines):
            raise Wrong(f"a line of epoch {text['epochs'] - 1} is refused")
        return report

    # ---- what a boundary leaves in swap of a life that waits, where no yield can stand in for its stall

    def settle(self, stops, epoch):
        hidden = [life for life, stop in stops.items() if stop.is_hidden and stop.last and stop.swapped[0]]
        if not hidden:
            return
        lives = [life for life in self.lives if life.first < epoch]
        place = {life: number for number, life in enumerate(lives)}
        traces = [life.steps[:life.done(epoch) + 1] if life.runs_in(epoch - 1) else life.whole() for life in lives]
        told = self.obeying(self.life_text(epoch + 1, lives, traces, [f"dommemstat g{place[life]}" for life in hidden]))
        kept = {life: int(answer[-1].split(" ")[1]) // self.text["page"] for life, (_, _, answer) in zip(hidden, told.epochs[-1].lines)}
        served = self.served(hidden, lives, traces, epoch)
        given = {life: self.given(life, epoch, kept[life]) for life in hidden}
        spare = dict.fromkeys(hidden, 0)
        asked = [life for life in hidden if given[life] and kept[life] == life.after[epoch - 1]["target"]]
        if asked:
            spare.update(self.spares(asked, lives, traces, epoch, kept, served))
        for life in hidden:
            if given[life] is not None and (not given[life] or spare[life] is not None):
                stops[life].front = served[life] + max(0, given[life] - (spare[life] or 0))

    def served(self, hidden, lives, traces, epoch):
        """What is in swap of each once the devices are served."""
        lines, cut = [], list(traces)
        for number, life in enumerate(lives):
            if life.runs_in(epoch - 1):
                lines += self.kept(number, life, epoch - 1)
            if life in hidden and life.guest in self.report.epochs[epoch - 1].stalled:
                cut[number] = life.steps[:life.done(epoch)] + ["y", "y"]
        report = self.obeying(self.life_text(epoch + 1, lives, cut, lines))
        return {life: report.stands[lives.index(life)]["swapped"] if life.guest in self.report.epochs[epoch - 1].stalled
                else life.after[epoch - 1]["swapped"] for life in hidden}

    def given(self, life, epoch, kept):
        """The frames that a life gives up in a boundary once it gave its spares back, None where that isn't known."""
        told = self.report.epochs[epoch]
        lines = [(who, line.split(" ")[0]) for at, who, line in self.obeyed if at == epoch]
        if (life, "memtune") in lines:
            return None
        if all(guest != life.guest for guest, _ in told.counts["grant"]):
            return kept - life.after[epoch]["held"]
        paged = sum(count for guest, count in told.counts["page"] if guest == life.guest)
        if all(word not in ("start", "memtune") for _, word in lines):
            return paged
        if kept == life.after[epoch - 1]["target"] and (life, "setmem") not in lines:
            return paged + sum(count for _, revoked, _ in told.lines for guest, count in revoked if guest == life.guest)
        return None

    def spares(self, asked, lives, traces, epoch, kept, served):
        """The spare frames of each once it gave spares back: another guest's start takes all its frames but one, and then its touch that one."""
        lines, left = [], self.text["frames"] - self.text["overhead"]
        for number, life in enumerate(lives):
            if life in asked:
                lines += [f"memtune g{number} --min-guarantee {self.text['page']}k", f"setmem g{number} {self.text['page']}k"]
            elif life.runs_in(epoch - 1):
                lines += self.kept(number, life, epoch - 1)
            left -= (1 if life in asked else life.after[epoch - 1]["held"]) + self.text["overhead"] if life.runs_in(epoch - 1) else 0
        if left < 1:
            return dict.fromkeys(asked)
        text = self.life_text(epoch + 1, lives, traces, lines + [f"start g{len(lives)}"])
        text["guests"].append({"name": f"g{len(lives)}", "size": left, "min": left, "autostart": False})
        report = self.obeying(text)
        return {life: kept[life] - (report.stands[lives.index(life)]["swapped"] - served[life]) for life in asked}

    # ---- which touches sent a page out

    def probe(self, stops, epoch):
        """Whether the pages of touches were in swap, where it isn't known yet what they did."""
        lives = [life for life in self.lives if life.first <= epoch]
        held = [line for number, life in enumerate(lives) if life in stops for line in self.kept(number, life, epoch)]
        for count in sorted({count for stop in stops.values() for count in stop.unknown}):
            def left(ends):
                text = self.life_text(epoch + 2, lives, self.traces_at(lives, stops, ends), held)
                report = self.obeying(text)
                return {lives[number]: stands["swapped"] for number, stands in report.stands.items()}
            asked = [life for life, stop in stops.items() if count in stop.unknown]
            with_it = left(lambda stop: stop.cut(count, inflates=True))
            if any(with_it[life] < stops[life].swapped[count] for life in asked):
                without = left(lambda stop: stop.cut(count))
            else:
                without = with_it
            for life in asked:
                stops[life].sent[count] = without[life] - with_it[life]


class Stops:
    """The touches of a life in an epoch, and what is in swap in front of each."""

    def __init__(self, run, life, epoch):
        self.life, self.driver = life, life.config["driver"]
        self.begin, end = life.done(epoch), life.after[epoch]["done"]
        self.length = end - self.begin
        self.steps = life.steps[self.begin:end]
        self.touches = [place for place, step in enumerate(self.steps) if touched(step) is not None]
        self.last = life.after[epoch]["swapped"]
        self.waited = bool(self.touches) and life.waits_for is not None
        self.is_hidden = self.waited and not self.can_yield(run)
        self.swapped, self.sent, self.unknown = {len(self.touches): self.last}, {}, []
        self.front = None

    def can_yield(self, run):
        """Whether a yield may stand in for the stall that came before this epoch."""
        length, executed, raws = self.life.waits_from
        period = self.life.config["period"]
        more = run.text["quantum"] - length
        return self.life.waits_for >= 0 and executed // period == (executed + more) // period and raws < MOST_RAW

    def raws(self, count=None):
        """Raw posts in front of a touch, or of all."""
        return sum(step[0] == "p" for step in self.steps[:None if count is None else self.touches[count]])

    def wanted(self):
        """In front of how many touches it has to be known what is in swap: of the first at most, where no touch has sent a page out."""
        return len(self.touches) if self.last else min(1, len(self.touches))

    def cut(self, count, inflates=False):
        """The trace that ends in front of a touch, or behind the last step."""
        life = self.life
        at = self.begin + (self.touches[count] if count < len(self.touches) else self.length)
        front = life.steps[:at]
        if at == self.begin and life.waits_for is not None:
            if self.is_hidden or not self.waited:
                return front + life.steps[at:at + 1] + ["y"]
            deflate = "i" if self.driver == "none" else "p d " + little(life.waits_for)
            return front + [deflate, "y", "y"]
        if inflates and count in self.unknown:
            return front + ["p i " + little(touched(life.steps[at])), "y"]
        return front + ["y"]

    def guess(self):
        """What each touch sent out, as far as what is in swap tells it."""
        if self.is_hidden:
            # the run has what is in swap behind the first touch
            behind = self.swapped[0]
            if self.front is not None:
                self.boundary, self.sent[0] = (self.front,) * 2, behind - self.front
            else:
                self.boundary, self.sent[0] = ((behind - 1, behind), (0, 1)) if self.last and behind else ((behind,) * 2, 0)
            if self.sent[0] not in (0, 1, (0, 1)):
                raise Wrong(f"{self.sent[0]} more pages in swap by the touch of a page that a life waited for")
        else:
            self.boundary = (self.swapped[0],) * 2
        if not self.last:
            return
        is_in = {touched(self.steps[0])} if self.is_hidden else set()
        for count in range(self.is_hidden, len(self.touches)):
            page = touched(self.steps[self.touches[count]])
            more = self.swapped[count + 1] - self.swapped[count]
            if more not in (-1, 0, 1):
                raise Wrong(f"{more} more pages in swap by one touch")
            if more == 1:
                self.sent[count] = 1
            elif more == -1 or self.swapped[count] == 0 or page in is_in or (count == 0 and self.waited):
                self.sent[count] = 0
            elif self.raws(count) >= MOST_RAW:
                self.sent[count] = (0, 1)
            else:
                self.unknown.append(count)
            if self.sent.get(count, 1):
                is_in = set()
            is_in.add(page)

    def result(self):
        pairs = [sent if isinstance(sent, tuple) else (sent, sent) for sent in self.sent.values()]
        return self.boundary, (sum(low for low, _ in pairs), sum(high for _, high in pairs))


def little(page):
    return page.to_bytes(4, "little").hex()

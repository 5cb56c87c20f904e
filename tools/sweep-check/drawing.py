"""The drawing of a sweep once more, from its table alone, by a reading of docs/FORMATS.md; strokes and marks are those of ../redraw."""
import importlib.machinery
import importlib.util
from pathlib import Path

TITLE = "What a host pages and whom it lets wait on each machine"
WIDTH, HEIGHT = 880, 200


def beside(name):
    """A script beside this folder."""
    loader = importlib.machinery.SourceFileLoader(name, str(Path(__file__).resolve().parent.parent / name))
    module = importlib.util.module_from_spec(importlib.util.spec_from_loader(name, loader))
    loader.exec_module(module)
    return module


redraw = beside("redraw")


class Chart:
    """A chart of curves over frames; its room begins at y. Curves are (name, samples), where samples are the values of all seeds on each
    machine, and have bands where it is said how many seeds there are."""

    def __init__(self, y, frames, curves, is_banded):
        self.frames, self.base, self.is_banded = frames, y + 34 + HEIGHT, is_banded
        self.curves = [(name, [middle(values) for values in samples]) for name, samples in curves]
        self.edges = [(name, [max(values) for values in samples], [min(values) for values in samples]) for name, samples in curves]
        greatest = max(value for _, samples in curves for values in samples for value in values)
        self.step = redraw.round_step(greatest, 5)
        self.parts = max(1, -(-greatest // self.step))

    def across(self, frames):
        return (frames - self.frames[0]) * WIDTH // (self.frames[-1] - self.frames[0])

    def up(self, value):
        return value * HEIGHT // (self.step * self.parts)

    def axes(self, unit):
        for part in range(self.parts + 1):
            y = self.base - self.up(part * self.step)
            yield f'<path class="grid" d="M90,{y}H970"/>\n' + redraw.words_at("end", 82, y + 4, str(part * self.step))
        step = redraw.round_step(self.frames[-1] - self.frames[0], 10)
        for frames in range(-(-self.frames[0] // step) * step, self.frames[-1] + 1, step):
            x = 90 + self.across(frames)
            yield f'<path class="tick" d="M{x},{self.base}v6"/>\n' + redraw.words_at("middle", x, self.base + 20, str(frames))
        yield redraw.words_at("middle", 530, self.base + 38, "frames")
        yield f'<text class="middle" transform="translate(28,{self.base - HEIGHT // 2}) rotate(-90)">{unit}</text>\n'

    def points(self, frames, values):
        return [f"{self.across(place)},{self.up(value)}" for place, value in zip(frames, values)]

    def bands(self):
        """Right along the greatest values, and left along the least."""
        for number, (name, greatest, least) in enumerate(self.edges if self.is_banded else []):
            corners = "L".join(self.points(self.frames, greatest) + self.points(self.frames[::-1], least[::-1]))
            yield (f'<path class="band" transform="translate(90,{self.base}) scale(1,-1)" fill="{redraw.hue_of(number)}" fill-opacity="0.2" '
                   f'd="M{corners}Z"><title>{redraw.escaped(name)}</title></path>\n')

    def paths(self):
        for number, (name, values) in enumerate(self.curves):
            yield (f'<path class="curve" transform="translate(90,{self.base}) scale(1,-1)" {redraw.stroke(number)} '
                   f'd="M{"L".join(self.points(self.frames, values))}"><title>{redraw.escaped(name)}</title></path>\n')

    def marks(self):
        stride = max(1, len(self.frames) // 6)
        for number, (_, values) in enumerate(self.curves):
            for place in range(number % stride, len(self.frames), stride):
                yield redraw.mark_at(90 + self.across(self.frames[place]), self.base - self.up(values[place]), number)

    def columns(self):
        return max(1, WIDTH // (84 + 13 * max(len(name) for name, _ in self.curves)))

    def legend(self):
        for slot, (name, _) in enumerate(self.curves):
            line, column = divmod(slot, self.columns())
            x, y = 90 + column * (WIDTH // self.columns()), self.base + 62 + 24 * line
            yield (f'<g transform="translate({x},{y})"><path class="sample" {redraw.stroke(slot)} d="M0,0H60"/>{redraw.mark_at(30, 0, slot)}'
                   f'<text x="68" y="4">{redraw.escaped(name)}</text></g>\n')


def middle(values):
    """The median; of an even number of values the lower of the two in the middle."""
    return sorted(values)[(len(values) - 1) // 2]


def label(column, value):
    """What a curve is called for the value in a column."""
    if column == "min_percent":
        return f"min {value}%"
    return f"{'page rate' if column == 'page_rate' else column} {value}"


def subjects(columns):
    """What the combinations are of."""
    found = ["swap", "tax", "page rate"] + ["rebalance"] * ("rebalance" in columns)
    found += ["minimums"] * any(column.startswith("min") for column in columns)
    found += ["shares"] * any(column.startswith("shares ") for column in columns)
    return f"{', '.join(found[:-1])} and {found[-1]}"


def drawing_of(table, page):
    """The drawing of a table of runs, as lists of fields with their header, of a text whose page stands for so many KiB."""
    header, rows = table[0], table[1:]
    columns = header[:header.index("high")]
    is_banded = columns[-1] == "seed"
    seeds = len({row[len(columns) - 1] for row in rows}) if is_banded else 1
    frames = sorted({int(row[0]) for row in rows})
    count = len(rows) // (len(frames) * seeds)
    places = range(1, len(columns) - is_banded)
    labels = [[label(columns[place], row[place]) for place in places] for row in rows[:count * seeds:seeds]]
    differ = [place for place in range(len(places)) if len({each[place] for each in labels}) > 1]
    names = [", ".join(each[place] for place in differ) or "all" for each in labels]
    behind = f": medians of {redraw.counted(seeds, 'seed')}, from least to greatest" if is_banded else ""
    charts = [("1. Frames paged and pages evicted", "pages", ("paged", "evicted")), ("2. Guests blocked or stalled", "guests", ("blocked", "stalls"))]
    y, body = 70, []
    for title, unit, summed in charts:
        values = [sum(int(row[header.index(key)]) for key in summed) for row in rows]
        samples = [values[first:first + seeds] for first in range(0, len(values), seeds)]
        chart = Chart(y, frames, [(name, samples[place::count]) for place, name in enumerate(names)], is_banded)
        body += [f"<g><title>{title}{behind}</title>\n", redraw.words_at("title", 90, y + 20, title + behind), *chart.axes(unit), *chart.bands(),
                 *chart.paths(), *chart.marks(), *chart.legend(), "</g>\n"]
        y = chart.base + 54 + 24 * -(-count // chart.columns())
    bytes_of = "have 4096 bytes" if page == 4 else f"stand for {page} KiB"
    note = (f"{redraw.counted(len(frames), 'machine')}, {redraw.counted(count, 'combination')} of {subjects(columns)}; "
            f"sums over all epochs; a frame and a page {bytes_of}")
    return (f'<svg xmlns="http://www.w3.org/2000/svg" role="img" width="1010" height="{y}" viewBox="0 0 1010 {y}" '
            f'font-family="sans-serif" font-size="13">\n<title>{TITLE}</title>\n<style>{redraw.STYLES}</style>\n'
            f'<rect width="100%" height="100%" fill="#fff"/>\n{redraw.words_at("heading", 90, 34, TITLE)}{redraw.words_at("plain", 90, 58, note)}'
            f'{"".join(body)}</svg>\n')

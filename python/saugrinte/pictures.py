"""Pictures of a rated gas and of a rated archive, drawn by matplotlib and given as SVG text. The same input gives the
same bytes. A picture can stand in one page with others: its ids (matplotlib's gid) begin with its own name. Every
figure drawn comes from the library; hatches, marks and labels tell what colours tell, for a print in black and white.
"""
import io
import math
import re
import threading
from dataclasses import dataclass
from decimal import Decimal
from html import escape
from typing import Any, Callable, Optional, Sequence

import matplotlib.style
from matplotlib.axes import Axes
from matplotlib.dates import AutoDateLocator, ConciseDateFormatter
from matplotlib.figure import Figure
from matplotlib.ticker import FormatStrFormatter, MaxNLocator

from . import gas, library
from .amounts import in_unit
from .ratings import Rating, Refused, SystemShare, rate_parts
from .words import methane_number

STEP = 1000                 # parts by which a component grows in the picture of effects

MOST_BINS = 800             # of an archive's picture
MOST_POINTS = 400           # rows that are drawn one by one

WIDTH = 4.8                 # inches: fonts of 10 points can be read on a screen of 360 pixels
STYLE = {'font.family': 'DejaVu Sans', 'font.size': 10, 'axes.spines.top': False, 'axes.spines.right': False,
         'axes.linewidth': 0.8, 'hatch.linewidth': 0.7, 'svg.fonttype': 'path', 'svg.hashsalt': 'saugrinte'}

# Colours that the colour-blind tell apart, and a hatch for each component of a split (lines alone: dots are long SVG).
BLUE, ORANGE, GREY, INK = '#56b4e9', '#e69f00', '#dddddd', '#222222'
LOOKS = {'methane': ('#cfe8f7', ''), 'ethane': ('#e69f00', '///'), 'propane': ('#009e73', '|||'),
         'butane': ('#cc79a7', 'xxx'), 'hydrogen': ('#f0e442', '\\\\\\')}
MARKS = 'osD^vP*'
PAPER: dict[str, Any] = {'facecolor': 'white', 'edgecolor': 'none', 'pad': 0.8}     # under text

DRAWING = threading.Lock()  # matplotlib's settings are one for the whole process


def picture(name: str, alt: str, size: tuple[float, float], draw: Callable[[Figure], None]) -> str:
    """The SVG of what is drawn, with words for those who cannot see it."""
    out = io.StringIO()
    with DRAWING, matplotlib.style.context(['default', STYLE]):
        figure = Figure(figsize=size, layout='constrained')
        draw(figure)
        figure.savefig(out, format='svg', metadata={'Date': None})
    return inlined(out.getvalue(), name, alt)


def inlined(svg: str, name: str, alt: str) -> str:
    """An SVG that may stand in a page: no prologue, no style for the whole page, ids of its own."""
    svg = re.sub(r'(?s)<!--.*?-->|<metadata>.*?</metadata>|<style.*?</style>|^.*?(?=<svg )', '', svg)
    svg = re.sub(r'( id="|href="#|url\(#)', r'\g<1>%s-' % name, svg)
    svg = re.sub(r'\n\s*', '\n', svg)
    root = '<svg role="img" aria-label="%s" style="stroke-linejoin:round" ' % escape(alt)
    return svg.strip().replace('<svg ', root, 1)


def signed(units: int) -> str:
    """A change with its sign and four decimals."""
    return ('+' if units > 0 else '\u2212' if units < 0 else '') + methane_number(abs(units))


def distance(units: int) -> str:
    """How far apart two numbers are: four decimals, or all seven where four would say nothing."""
    text = methane_number(abs(units))
    return text if not units or text.strip('0.') else '%.7f' % Decimal(abs(units)).scaleb(-7)


def bare(axes: Axes, *kept: str) -> None:
    """Leaves only some of the four lines around a picture."""
    for side, spine in axes.spines.items():
        spine.set_visible(side in kept)


# ------------------------------------------------------------ the number and the plate

def verdict(rating: Rating, plate: int) -> str:
    """What the number is to an engine's plate number."""
    units = rating.units - plate * 10 ** 7
    if units < 0 <= rating.whole_number - plate:
        return 'short by %s (the whole number %d meets the plate)' % (distance(units), rating.whole_number)
    return ('short by %s' if units < 0 else 'ample by %s') % distance(units)


def number_picture(rating: Rating, plate: Optional[int] = None, name: str = 'number') -> str:
    """The number on a scale, with the plate's line and how far apart they are."""
    number = float(rating.number)
    away = 5.0 if plate is None else max(0.8 * abs(number - plate), 2.0)
    left, right = min(number, number if plate is None else plate) - away, max(number, plate or 0) + away
    said = '' if plate is None else verdict(rating, plate)
    alt = 'Methane number %s' % methane_number(rating.units) + (
        ' on a scale with the plate number %d: %s.' % (plate, said) if plate is not None else ' on a scale.')

    def draw(figure: Figure) -> None:
        axes = figure.add_subplot()
        bare(axes, 'bottom')
        axes.set(xlim=(left, right), ylim=(0, 2.9 if said else 2.1), yticks=[], xlabel='methane number')
        axes.axhline(0.95, color=INK, linewidth=0.8)
        short = plate is not None and number < plate
        if plate is not None:
            axes.barh(0.95, number - plate, 0.5, plate, color=ORANGE if short else BLUE, edgecolor=INK,
                      hatch='///' if short else '')
            axes.plot([plate, plate], [0.45, 2.05], color=INK, linestyle='--', linewidth=1.6, gid='plate')
            put(axes, plate, 0.04, 'plate %d' % plate)
            axes.annotate('', (number, 2.0), (plate, 2.0), arrowprops={'arrowstyle': '->', 'color': INK,
                                                                      'shrinkA': 0, 'shrinkB': 0})
            put(axes, (number + plate) / 2, 2.25, said.split(' (')[0], weight='bold')
        axes.plot(number, 0.95, 'D', color=INK, markersize=9, gid='mark')
        axes.annotate(methane_number(rating.units), (number, 1.32), size=12, weight='bold', va='bottom',
                      ha='center' if plate is None else 'right' if short else 'left')
        axes.xaxis.set_major_locator(MaxNLocator(6))

    return picture(name, alt, (WIDTH, 1.75 if said else 1.35), draw)


def put(axes: Axes, x: float, y: float, text: str, size: float = 10, **how: object) -> None:
    """Text about a place on the scale, moved where it would leave the picture."""
    left, right = axes.get_xlim()
    half = 0.0085 * size / 10 * len(text) * (right - left)
    axes.text(min(max(x, left + half), right - half), y, text, size=size, ha='center', va='bottom', **how)


# ------------------------------------------------------------ the split

def split_picture(rating: Rating, name: str = 'split') -> str:
    """A bar for each chosen system, in percent of the simplified mixture; and the same without methane, enlarged."""
    systems = rating.systems
    there = [component for component in LOOKS if any(s.components.get(component) for s in systems)]
    rest = [component for component in there if component != 'methane']
    enlarged = len(rest) < len(there) and max(sum(parts_of(s, rest)) for s in systems) < max(
        s.parts for s in systems) * 0.4
    alt = 'The split of the simplified mixture between systems: ' + '; '.join('system %d %s %% (%s)' % (
        s.system, gas.percent(s.parts), ', '.join('%s %s' % (component, gas.percent(s.components.get(component, 0)))
                                                  for component in there if component in s.components))
        for s in systems) + '.'

    def draw(figure: Figure) -> None:
        panels = figure.subplots(2 if enlarged else 1, 1, squeeze=False)[:, 0]
        stacked(panels[0], systems, there, '% of the simplified mixture')
        if enlarged:
            stacked(panels[1], systems, rest, '% of the simplified mixture, without methane, enlarged')
        panels[0].legend(loc='lower right', bbox_to_anchor=(1, 1), ncol=columns, frameon=False, borderaxespad=0.2,
                         handlelength=1.8, handleheight=1.2, handletextpad=0.5, columnspacing=1)

    columns = len(there) if len(there) < 5 else 3
    height = 0.1 + 0.27 * math.ceil(len(there) / columns) + (0.36 * len(systems) + 0.62) * (2 if enlarged else 1)
    return picture(name, alt, (WIDTH, height), draw)


def parts_of(share: SystemShare, components: Sequence[str]) -> list[int]:
    return [share.components.get(component, 0) for component in components]


def stacked(axes: Axes, systems: Sequence[SystemShare], components: Sequence[str], label: str) -> None:
    """A bar for each system, its components one after the other, named where there is room."""
    bare(axes, 'bottom', 'left')
    rows = range(len(systems))
    widest = max(sum(parts_of(s, components)) for s in systems) / 10000
    left = [0.0] * len(systems)
    for component in components:
        widths = [s.components.get(component, 0) / 10000 for s in systems]
        colour, hatch = LOOKS[component]
        axes.barh(rows, widths, 0.68, left, color=colour, edgecolor=INK, hatch=hatch, linewidth=0.8, label=component)
        for row, width in enumerate(widths):
            text = str(in_unit(systems[row].components.get(component, 0)))
            if width > 0.0205 * len(text) * widest:
                axes.text(left[row] + width / 2, row, text, ha='center', va='center', size=8.5, bbox=PAPER)
            left[row] += width
    axes.set(xlim=(0, widest * 1.02), xlabel=label, yticks=rows, yticklabels=['system %d' % s.system for s in systems])
    axes.xaxis.label.set_size(9)
    axes.xaxis.set_major_locator(MaxNLocator(5))
    axes.tick_params(axis='y', length=0)
    axes.invert_yaxis()


# ------------------------------------------------------------ partial numbers

def partial_picture(rating: Rating, name: str = 'partial') -> str:
    """The systems' partial numbers with the band between the least and the greatest, the spread limit for comparison,
    and where the rating lies, which is corrected for inert gases and may be outside the band."""
    systems = rating.systems
    least, greatest = min(s.units for s in systems), max(s.units for s in systems)
    low, high = least / 1e7, greatest / 1e7
    limit, left, right = gas.SPREAD_LIMIT / 1e7, low - 0.018, low + 0.08
    if low - 0.06 < float(rating.number) < low + 0.12:
        left, right = min(left, float(rating.number) - 0.012), max(right, float(rating.number) + 0.012)
    place = where(rating.units, least, greatest)
    alt = 'Partial numbers: %s; spread %s, of %s allowed. The rating %s lies %s.' % (
        '; '.join('system %d %s' % (s.system, methane_number(s.units)) for s in systems),
        methane_number(rating.spread_units), limit, methane_number(rating.units), place)

    def draw(figure: Figure) -> None:
        axes = figure.add_subplot()
        bare(axes, 'bottom', 'left')
        rows = len(systems)
        axes.set(xlim=(left, right), ylim=(rows - 0.4, -2.8), xlabel='partial number', yticks=range(rows),
                 yticklabels=['system %d' % s.system for s in systems])
        axes.axvspan(low, high, 0, rows / (rows + 2.4), facecolor=GREY)
        rating_line(axes, rating, place)
        axes.annotate('', (low, -0.75), (low + limit, -0.75), arrowprops={
            'arrowstyle': '|-|,widthA=.35,widthB=.35', 'shrinkA': 0, 'shrinkB': 0, 'color': INK, 'gid': 'limit'})
        axes.text(low + limit / 2, -1.0, 'limit of the spread %g' % limit, ha='center', va='bottom', size=9, bbox=PAPER)
        for row, system in enumerate(systems):
            axes.plot(system.units / 1e7, row, MARKS[row], color=INK, markerfacecolor=ORANGE, markersize=8,
                      gid='system-%d' % system.system)
            axes.annotate(methane_number(system.units), (system.units / 1e7, row), (8, 0), va='center', size=9,
                          textcoords='offset points', bbox={**PAPER, 'alpha': 0.75})
        axes.xaxis.set_major_locator(MaxNLocator(5))
        axes.xaxis.set_major_formatter(FormatStrFormatter('%.2f'))
        axes.spines['left'].set_bounds(-0.4, rows - 0.4)
        axes.tick_params(axis='y', length=0)

    return picture(name, alt, (WIDTH, 1.6 + 0.33 * len(systems)), draw)


def where(units: int, least: int, greatest: int) -> str:
    if units > greatest:
        return '%s above the band' % distance(units - greatest)
    return '%s below the band' % distance(least - units) if units < least else 'in the band'


def rating_line(axes: Axes, rating: Rating, place: str) -> None:
    """The rating: a line where it is within the picture, else an arrow to its side."""
    left, right = axes.get_xlim()
    number, text = float(rating.number), 'rating %s: %s' % (methane_number(rating.units), place)
    if left <= number <= right:
        axes.plot([number, number], [axes.get_ylim()[0], -1.75], color=INK, linestyle='-.', linewidth=1.5, gid='rating')
        put(axes, number, -1.9, text, size=9, weight='bold')
        return
    put(axes, (left + right) / 2, -1.9, '\u25c0 ' + text if number < left else text + ' \u25b6', size=9, weight='bold')


# ------------------------------------------------------------ what each component does

@dataclass(frozen=True)
class Effect:
    """The change of the number, in units, where a component grows by so many parts at methane's expense; or why the
    library refuses the gas so changed."""
    component: str
    present: bool
    parts: int
    units: Optional[int]
    refused: Optional[Refused] = None


def effects(amounts: Sequence[int], moles: bool = False, step: int = STEP) -> list[Effect]:
    """The effects of all components but methane on a gas, amounts in parts by code: greatest change first, refused ones
    last. The gas itself is rated by the search here; Refused where the library refuses it."""
    number = rate_parts(amounts, moles=moles).units
    found = [effect(amounts, number, component, moles, step) for component in gas.COMPONENTS
             if component.code != gas.REQUIRED]
    return sorted(found, key=lambda e: (e.units is None, -(e.units or 0)))


def effect(amounts: Sequence[int], number: int, component: gas.Component, moles: bool, step: int) -> Effect:
    """The effect of one: of the whole step, or of as much as the library's ranges leave of it."""
    ranges, code = library.ranges().amounts, component.code
    room = min(ranges[code][1] - amounts[code], amounts[gas.REQUIRED] - ranges[gas.REQUIRED][0])
    parts = min(step, room) if room > 0 else step
    changed = list(amounts)
    changed[code] += parts
    changed[gas.REQUIRED] -= min(parts, changed[gas.REQUIRED])
    try:
        units = rate_parts(changed, moles=moles).units - number
    except Refused as refused:
        return Effect(component.name, amounts[code] > 0, parts, None, refused)
    return Effect(component.name, amounts[code] > 0, parts, units)


def effect_label(effect: Effect, step: int) -> str:
    """A component's name, with what else must be known of its bar."""
    said = [] if effect.present else ['absent']
    if effect.parts != step:
        said.append('+%s' % gas.percent(effect.parts))
    return effect.component + (' (%s)' % ', '.join(said) if said else '')


def effect_text(effect: Effect) -> str:
    if effect.refused:
        return 'refused %d' % effect.refused.number
    return signed(effect.units or 0)


def effects_picture(found: Sequence[Effect], moles: bool = False, step: int = STEP, name: str = 'effects') -> str:
    """A bar for each component, with its figure."""
    unit = gas.MOLE_PERCENT if moles else gas.PERCENT
    alt = 'Change of the methane number where a component grows by %s %s at methane\u2019s expense: %s.' % (
        gas.percent(step), unit, '; '.join('%s %s' % (effect_label(e, step), effect_text(e)) for e in found))
    changes, labels = [(e.units or 0) / 1e7 for e in found], [effect_label(e, step) for e in found]
    play, limits = gas.SPREAD_LIMIT / 1e7, effect_limits(changes, max(map(len, labels)))

    def draw(figure: Figure) -> None:
        axes = figure.add_subplot()
        bare(axes, 'bottom')
        axes.axvspan(-play, play, color=GREY, linewidth=0)
        axes.axvline(0, color=INK, linewidth=0.8)
        for row, (one, change) in enumerate(zip(found, changes)):
            axes.barh(row, change, 0.66, color=BLUE if change > 0 else ORANGE, edgecolor=INK, linewidth=0.8,
                      hatch=('' if one.present else '///') if one.parts == step else 'xxx', gid=one.component)
            axes.annotate(effect_text(one), (change, row), (5 if change >= 0 else -5, 0), size=9, va='center',
                          textcoords='offset points', ha='left' if change >= 0 else 'right')
        axes.set(xlim=limits, yticks=range(len(found)), yticklabels=labels,
                 xlabel='change of the methane number at +%s %s' % (gas.percent(step), unit))
        axes.xaxis.label.set_size(9)
        axes.xaxis.set_major_locator(MaxNLocator(5))
        axes.tick_params(axis='y', length=0, labelsize=9)
        axes.invert_yaxis()

    return picture(name, alt, (WIDTH, 0.75 + 0.27 * len(found)), draw)


def effect_limits(changes: Sequence[float], label: int) -> tuple[float, float]:
    """The ends of the scale: the bars, and room for the text beside them. Widths are estimated, in points."""
    room = 56 / (WIDTH * 72 - 5.4 * label - 20)
    low, high = min(*changes, -0.05), max(*changes, 0.05)
    scale = (high - low) / (1 - 2 * room)
    return low - room * scale, high + room * scale


# ------------------------------------------------------------ archives

class Bin:
    """What is kept of the rows that lie close together."""
    __slots__ = ('rows', 'place', 'rated', 'total', 'least', 'greatest', 'below', 'refused', 'unreadable')

    def __init__(self) -> None:
        self.rows = self.rated = self.below = self.refused = self.unreadable = 0
        self.place = self.total = 0.0
        self.least, self.greatest = math.inf, -math.inf

    def take(self, other: 'Bin') -> None:
        for count in ('rows', 'place', 'rated', 'total', 'below', 'refused', 'unreadable'):
            setattr(self, count, getattr(self, count) + getattr(other, count))
        self.least, self.greatest = min(self.least, other.least), max(self.greatest, other.greatest)


class History:
    """An archive's numbers for its picture, in bounded memory: bins are made twice as wide when there are too many.
    Rows have places, which are their times in seconds or their numbers, in any order."""

    def __init__(self) -> None:
        self.width = 1.0
        self.bins: dict[int, Bin] = {}
        self.first = self.last = 0
        self.points: Optional[list[tuple[float, float]]] = []

    def bin_at(self, place: float) -> Bin:
        index = math.floor(place / self.width)
        if index not in self.bins:
            self.first = min(index, self.first) if self.bins else index
            self.last = max(index, self.last) if self.bins else index
            self.bins[index] = Bin()
            while self.last - self.first >= MOST_BINS:
                self.widen()
            index = math.floor(place / self.width)
        found = self.bins[index]
        found.rows += 1
        found.place += place
        return found

    def widen(self) -> None:
        self.width *= 2
        bins: dict[int, Bin] = {}
        for index, old in self.bins.items():
            bins.setdefault(index // 2, Bin()).take(old)
        self.bins, self.first, self.last = bins, self.first // 2, self.last // 2

    def rated(self, place: float, number: float, below: bool) -> None:
        found = self.bin_at(place)
        found.rated += 1
        found.total += number
        found.below += below
        if number < found.least:
            found.least = number
        if number > found.greatest:
            found.greatest = number
        if self.points is not None:
            self.points.append((place, number))
            if len(self.points) > MOST_POINTS:
                self.points = None

    def refused(self, place: float) -> None:
        self.bin_at(place).refused += 1

    def unreadable(self, place: float) -> None:
        self.bin_at(place).unreadable += 1

    def ordered(self) -> list[Bin]:
        return [self.bins[index] for index in sorted(self.bins)]

    def count(self, what: str) -> int:
        return sum(getattr(one, what) for one in self.bins.values())


LANES = (('below', 'v', 'below %s'), ('refused', 'x', 'refused'), ('unreadable', '|', 'unreadable'))


def archive_picture(history: History, plate: Optional[int] = None, times: bool = False, name: str = 'archive') -> str:
    """The numbers over time or row by row: points, or for many rows the mean with a band from the least to the
    greatest; below them the rows that are below the plate, refused and unreadable."""
    lanes = [(what, mark, label % plate if '%' in label else label) for what, mark, label in LANES
             if history.count(what)]
    scale = 1 / 86400 if times else 1.0
    rated = history.count('rated')
    alt = 'Methane number %s: %s rated%s.' % ('over time' if times else 'by row', gas.counted(rated, 'row'), ''.join(
        ', %d %s' % (history.count(what), label) for what, _, label in lanes))

    def draw(figure: Figure) -> None:
        panels = figure.subplots(1 + bool(lanes), 1, squeeze=False, sharex=True,
                                 gridspec_kw={'height_ratios': [2.6, 0.26 * len(lanes)][:1 + bool(lanes)]})[:, 0]
        numbers(panels[0], history, plate, scale)
        if lanes:
            marks(panels[1], history, lanes, scale)
            panels[0].tick_params(axis='x', labelbottom=False)
        if times and history.bins:
            locator = AutoDateLocator(minticks=3, maxticks=6)
            panels[-1].xaxis.set_major_locator(locator)
            panels[-1].xaxis.set_major_formatter(ConciseDateFormatter(locator))
        elif not times:
            panels[-1].xaxis.set_major_locator(MaxNLocator(5, integer=True))
            panels[-1].xaxis.set_major_formatter('{x:.0f}')
        panels[-1].set_xlabel('time' if times else 'row')

    return picture(name, alt, (5.4, 3.3 + 0.28 * len(lanes)), draw)


def numbers(axes: Axes, history: History, plate: Optional[int], scale: float) -> None:
    """The numbers themselves, and the plate's line."""
    axes.set_ylabel('methane number')
    axes.grid(axis='y', color=GREY, linewidth=0.7)
    if history.points:
        points = sorted(history.points)
        axes.plot([x * scale for x, _ in points], [y for _, y in points], '-o', color='#0072b2', linewidth=0.8,
                  markersize=5 if len(points) < 60 else 3, gid='numbers')
    elif history.points is None:
        banded(axes, broken([one for one in history.ordered() if one.rated], scale))
    else:
        axes.text(0.5, 0.5, 'no row is rated', transform=axes.transAxes, ha='center')
    if plate is not None:
        axes.axhline(plate, color=INK, linestyle='--', linewidth=1.4, gid='plate')
        axes.annotate('plate %d' % plate, (1, plate), (4, 0), xycoords=('axes fraction', 'data'), va='center',
                      textcoords='offset points', size=9, weight='bold')
    axes.yaxis.set_major_locator(MaxNLocator(6))


def broken(bins: Sequence[Bin], scale: float) -> list[tuple[float, float, float, float]]:
    """(place, least, mean, greatest) of bins, with a break where rows are missing for long."""
    gap = (bins[-1].place / bins[-1].rows - bins[0].place / bins[0].rows) / 40
    drawn: list[tuple[float, float, float, float]] = []
    before = None
    for one in bins:
        place = one.place / one.rows
        if before is not None and place - before > gap:
            drawn.append((place * scale, math.nan, math.nan, math.nan))
        drawn.append((place * scale, one.least, one.total / one.rated, one.greatest))
        before = place
    return drawn


def banded(axes: Axes, drawn: Sequence[tuple[float, float, float, float]]) -> None:
    places, least, mean, greatest = zip(*drawn)
    axes.fill_between(places, least, greatest, color='#a8cfe6', linewidth=0.6, label='least to greatest', gid='band')
    axes.plot(places, mean, color='#00456e', linewidth=1.1, label='mean', gid='mean')
    axes.legend(loc='lower left', bbox_to_anchor=(0, 1), ncol=2, frameon=False, borderaxespad=0, fontsize=9)


def marks(axes: Axes, history: History, lanes: Sequence[tuple[str, str, str]], scale: float) -> None:
    """A lane for each kind of row that is not well, with how many there are."""
    bare(axes, 'bottom')
    for row, (what, mark, _) in enumerate(lanes):
        places = [one.place / one.rows * scale for one in history.ordered() if getattr(one, what)]
        axes.plot(places, [row] * len(places), mark, color=INK, markersize=6, markerfacecolor='none', gid=what)
    axes.set(ylim=(len(lanes) - 0.4, -0.6), yticks=range(len(lanes)),
             yticklabels=['%s: %d' % (label, history.count(what)) for what, _, label in lanes])
    axes.tick_params(axis='y', length=0, labelsize=9)

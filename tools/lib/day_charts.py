"""Drawings of a day as SVG, each of its own: prices and volumes, demand and supply, bars. They are told apart without
colour: demand is a solid line, supply a broken one, a clearing price a dotted one. Colours come from the page's style, by
the classes `demand`, `supply`, `price`, `axis`, `grid` and `bar`."""
import math
from collections import namedtuple
from html import escape

from formats import TICK

WIDTH, HEIGHT = 340, 230
LEFT, RIGHT, TOP, BOTTOM = 62, 12, 26, 38
VOLUME_TOP = 150
LEGEND_WIDTH = 460
# A chart of more batches than these draws several as one: their lowest and highest prices, and the largest volume. A digit is about so wide.
MOST_DRAWN, MOST_DOTS, DIGIT = 200, 100, 6.5
Group = namedtuple("Group", "name middle prices volume has_skip")
LONG = 10_000_000
STYLE = """
.chart text { font: 11px system-ui, sans-serif; fill: var(--ink); }
.chart .name { font-weight: 600; font-size: 13px; }
.chart .axis { stroke: var(--ink); stroke-width: 1; fill: none; }
.chart .grid { stroke: var(--faint); stroke-width: 1; fill: none; }
.chart .demand { stroke: var(--buy); stroke-width: 2.2; fill: none; }
.chart .supply { stroke: var(--sell); stroke-width: 2.2; fill: none; stroke-dasharray: 7 4; }
.chart .price { stroke: var(--ink); stroke-width: 1.4; fill: none; stroke-dasharray: 1.5 3; }
.chart .line { stroke: var(--buy); stroke-width: 2; fill: none; }
.chart .bought { fill: var(--buy); stroke: var(--paper); stroke-width: 1; }
.chart .sold { fill: var(--paper); stroke: var(--sell); stroke-width: 2; }
.chart .bar { fill: var(--bar); stroke: var(--ink); stroke-width: .7; }
.chart .cap { fill: none; stroke: var(--ink); stroke-width: .7; }
.chart .skip { stroke: var(--ink); stroke-width: 1.2; fill: none; }
"""
LIGHT = "--paper: #fff; --ink: #1b1b1b; --faint: #ddd; --buy: #0b4f8a; --sell: #b3541e; --bar: #9fb7cc; --row: #f4f4f4;"
DARK = "--paper: #15181c; --ink: #e8e8e8; --faint: #3a4048; --buy: #7fc1ff; --sell: #ffb27a; --bar: #4a6782; --row: #1e2329;"


def short(number, step=1.0):
    """A number of an axis, with the places that its steps need. A large one has three digits and a power of ten."""
    if abs(number) >= LONG:
        return f"{number:.3g}".replace("e+", "e")
    places = max(0, math.ceil(-math.log10(step) - 1e-9))
    return f"{round(number, places) + 0:,.{places}f}"


def in_ticks(grains):
    """An amount of grains in ticks, about."""
    return f"{grains / TICK:,.4f}" if grains == 0 or abs(grains) >= TICK else f"{grains / TICK:.4g}"


def steps(low, high, most):
    """Round numbers between two, at most so many, and how each is written."""
    width = (high - low) / most
    power = 10 ** math.floor(math.log10(width))
    step = next(power * part for part in (1, 2, 5, 10) if power * part >= width * 0.999)
    first = math.ceil(low / step - 1e-9)
    places = range(first, math.floor(high / step + 1e-9) + 1)
    return [(place * step, short(place * step, step)) for place in places]


class Scale:
    """Where numbers between two are in a drawing."""

    def __init__(self, low, high, start, end):
        self.low, self.high, self.start, self.end = low, high, start, end

    def __call__(self, number):
        return self.start + (number - self.low) / (self.high - self.low) * (self.end - self.start)


def line(kind, x1, y1, x2, y2):
    return f'<line class="{kind}" x1="{x1:.1f}" y1="{y1:.1f}" x2="{x2:.1f}" y2="{y2:.1f}"/>'


def text(x, y, words, anchor="start", kind=""):
    named = f' class="{kind}"' if kind else ""
    return f'<text{named} x="{x:.1f}" y="{y:.1f}" text-anchor="{anchor}">{escape(words)}</text>'


def path(kind, points):
    return f'<polyline class="{kind}" points="{" ".join(f"{x:.1f},{y:.1f}" for x, y in points)}"/>'


def dot(kind, x, y, words, radius=4):
    return f'<circle class="{kind}" cx="{x:.1f}" cy="{y:.1f}" r="{radius}"><title>{escape(words)}</title></circle>'


def bar(kind, x, y, width, height, words=""):
    said = f"<title>{escape(words)}</title>" if words else ""
    return f'<rect class="{kind}" x="{x:.1f}" y="{y:.1f}" width="{width:.1f}" height="{height:.1f}">{said}</rect>'


def drawing(parts, words, width=WIDTH, height=HEIGHT):
    """A drawing for a page; what it shows is also said, for readers who don't see it."""
    head = f'<svg class="chart" viewBox="0 0 {width} {height}" width="{width}" height="{height}" role="img"'
    return f'{head} aria-label="{escape(words)}">' + "".join(parts) + "</svg>"


def side_axis(scale, most):
    """The lines and numbers of the axis on the left."""
    parts = []
    for step, said in steps(scale.low, scale.high, most):
        parts += [line("grid", LEFT, scale(step), WIDTH - RIGHT, scale(step)), text(LEFT - 5, scale(step) + 4, said, "end")]
    return parts


def widened(numbers, share):
    """Two numbers around all of them, with some room."""
    low, high = min(numbers), max(numbers)
    room = (high - low) * share or max(abs(high) * 0.01, 1)
    return low - room, high + room


def batches_axis(across, batches):
    """The line at the bottom, with the numbers of some batches, of which none reaches into the next or out of the drawing."""
    parts = [line("axis", LEFT, HEIGHT - BOTTOM, WIDTH - RIGHT, HEIGHT - BOTTOM)]
    room = DIGIT * len(str(batches[-1].number)) if batches else 0
    every = max(1, math.ceil(len(batches) / 10), math.ceil(len(batches) * (room + 8) / (WIDTH - LEFT - RIGHT)))
    for batch in batches[::every]:
        parts += [text(min(across(batch.number), WIDTH - room / 2), HEIGHT - 22, str(batch.number), "middle")]
    has_skips = not all(batch.cleared() for batch in batches)
    return [*parts, text((LEFT + WIDTH - RIGHT) / 2, HEIGHT - 6, "batch" + ", x: skipped" * has_skips, "middle")]


def groups_of(batches, asset):
    """The batches in groups of so few that a chart can draw each group, and of each what it draws."""
    together = max(1, math.ceil(len(batches) / MOST_DRAWN))
    for first in range(0, len(batches), together):
        group = batches[first:first + together]
        held = [batch for batch in group if batch.cleared() and asset < len(batch.prices)]
        prices = [batch.prices[asset] for batch in held]
        name = f"batch {group[0].number}" if len(group) == 1 else f"batches {group[0].number} to {group[-1].number}"
        middle, volume = (group[0].number + group[-1].number) / 2, max((batch.volume(asset) for batch in held), default=0)
        ends = sorted({min(prices), max(prices)}) if prices else []
        yield Group(name, middle, ends, volume, not all(batch.cleared() for batch in group))


def prices_chart(batches, asset, ticker):
    """The price of each batch in ticks, and below it the volume in units. A batch that was skipped has a cross. The batches follow one
    another, from any number on."""
    groups = [*groups_of(batches, asset)]
    cleared, first = [group for group in groups if group.prices], batches[0].number if batches else 1
    across = Scale(first - 0.5, first + max(len(batches), 1) - 0.5, LEFT, WIDTH - RIGHT)
    prices, most = [price / TICK for group in groups for price in group.prices], max((group.volume for group in groups), default=0) or 1
    up = Scale(*widened(prices, 0.15), VOLUME_TOP - 14, TOP + 8) if prices else None
    tall = Scale(0, most, HEIGHT - BOTTOM, VOLUME_TOP)
    parts = [text(LEFT, 16, ticker, kind="name"), text(WIDTH - RIGHT, 16, "price in ticks, volume in units", "end")]
    parts += side_axis(up, 4) if prices else []
    width = min(24, (WIDTH - LEFT - RIGHT) / max(len(groups), 1) * 0.6)
    for group in cleared:
        said = f"{group.name}: {'at most ' * (len(groups) < len(batches))}{group.volume} units"
        parts += [bar("bar", across(group.middle) - width / 2, tall(group.volume), width, HEIGHT - BOTTOM - tall(group.volume), said)]
    parts += [text(LEFT - 5, VOLUME_TOP + 6, short(most), "end"), text(LEFT - 5, HEIGHT - BOTTOM + 4, "0", "end")]
    points = [(across(group.middle), up(price / TICK), group, price) for group in cleared for price in group.prices]
    parts += [path("line", [(x, y) for x, y, _, _ in points])] if points else []
    for x, y, group, price in points if len(groups) <= MOST_DOTS else ():
        said = f"{group.name}: {price} grains, about {in_ticks(price)} ticks"
        parts += [dot("bought", x, y, said, 4 if len(groups) <= 40 else 3)]
    for group in groups:
        if group.has_skip:
            x, y, arm = across(group.middle), HEIGHT - BOTTOM - 6, min(4, width / 2)
            parts += [line("skip", x - arm, y - arm, x + arm, y + arm), line("skip", x - arm, y + arm, x + arm, y - arm)]
    parts += batches_axis(across, batches)
    return drawing(parts, f"{ticker}: price and volume of {len(batches)} batches")


def bends(trade, asset, prices):
    """The prices of an asset, in ticks, at which an order's line bends, at the other assets' published prices: where it is cut
    at its batch maximum, and where it ends; its weight of the asset; and what it asks for of the asset at the first of the two."""
    order, weight = trade.order, trade.order.weight(asset)
    others = (order.cost(prices) - weight * prices[asset]) / TICK
    cut = order.high - trade.room * (order.high - order.low) / order.rate
    return (cut - others) / weight, (order.high - others) / weight, weight, abs(weight) * trade.room


def curve(sides, low, high):
    """Demand or supply between two prices, as points. A side is a line's bends, its weight and its most."""
    changes, amount, slope = [], 0.0, 0.0
    for full, empty, _, most in sides:
        first = min(full, empty)
        last = max(full, empty, math.nextafter(first, math.inf))  # (a short line, far from 0, may have rounded ends that are equal)
        start, end = (most, 0) if full <= empty else (0, most)
        if last <= low:
            amount += end
        elif first < low:
            amount += start + (end - start) * (low - first) / (last - first)
            slope += (end - start) / (last - first)
            changes += [(last, (start - end) / (last - first))]
        else:
            amount += start
            changes += [(first, (end - start) / (last - first)), (last, (start - end) / (last - first))]
    points, at = [(low, amount)], low
    for place, change in sorted(changes):
        if place >= high:
            break
        amount, at, slope = amount + slope * (place - at), place, slope + change
        points.append((at, amount))
    return [*points, (high, amount + slope * (high - at))]


def window(sides, price):
    """Between which prices curves are shown: those at which the orders bend that trade a part at the clearing price, or
    if there is none, those at which any does; but not further from the clearing price than twice the shortest line of
    these, so that it is seen beside long ones."""
    near = [side for side in sides if min(side[:2]) <= price <= max(side[:2])] or sides
    reach = 2 * min(abs(empty - full) for full, empty, _, _ in near)
    ends = [bend for side in near for bend in side[:2]]
    if near is not sides:
        ends = [min(max(bend, price - reach), price + reach) for bend in ends]
    return widened([price, *ends], 0.15)


def curves_chart(batch, asset, ticker):
    """Demand and supply of an asset in a batch that cleared, at the other assets' published prices, with its own on them:
    a full dot for what is bought there, a hollow one for what is sold."""
    price = batch.prices[asset] / TICK
    bought, sold, residual = batch.bought[asset], batch.sold[asset], batch.residuals[asset]
    sides = [bends(trade, asset, batch.prices) for trade in batch.trades if trade.order.weight(asset) and trade.room]
    amounts = f"bought {bought}, sold {sold}, residual {residual}"
    said = f"{ticker} in batch {batch.number}: price {in_ticks(batch.prices[asset])} ticks, {amounts}"
    parts = [text(LEFT, 16, ticker, kind="name"), text(WIDTH - RIGHT, 16, f"residual {residual:,} units", "end")]
    if not sides:
        parts += [text(WIDTH / 2, HEIGHT / 2, "no order names it", "middle")]
        return drawing(parts, said)
    low, high = window(sides, price)
    demand = curve([side for side in sides if side[2] > 0], low, high)
    supply = curve([side for side in sides if side[2] < 0], low, high)
    across = Scale(low, high, LEFT, WIDTH - RIGHT)
    most = max([amount for _, amount in demand + supply] + [bought, sold, 1])
    up = Scale(0, most * 1.08, HEIGHT - BOTTOM, TOP)
    parts += side_axis(up, 5)
    for step, words in steps(low, high, 4):
        parts += [line("axis", across(step), HEIGHT - BOTTOM, across(step), HEIGHT - BOTTOM + 4)]
        parts += [text(across(step), HEIGHT - 22, words, "middle")]
    parts += [line("axis", LEFT, HEIGHT - BOTTOM, WIDTH - RIGHT, HEIGHT - BOTTOM)]
    for kind, points in [("demand", demand), ("supply", supply)]:
        parts += [path(kind, [(across(x), up(y)) for x, y in points])]
    parts += [line("price", across(price), TOP, across(price), HEIGHT - BOTTOM)]
    parts += [dot("sold", across(price), up(sold), f"sold: {sold} units", 5)]
    parts += [dot("bought", across(price), up(bought), f"bought: {bought} units", 3)]
    parts += [text((LEFT + WIDTH - RIGHT) / 2, HEIGHT - 6, f"ticks; cleared at {in_ticks(batch.prices[asset])}", "middle")]
    return drawing(parts, said)


def legend():
    """What the lines of the curves are."""
    parts = [line("demand", 4, 10, 40, 10), text(46, 14, "demand"), line("supply", 104, 10, 140, 10), text(146, 14, "supply")]
    parts += [line("price", 200, 10, 236, 10), text(242, 14, "clearing price")]
    parts += [dot("bought", 340, 10, "bought", 3), text(350, 14, "bought"), dot("sold", 404, 10, "sold", 5), text(416, 14, "sold")]
    return drawing(parts, "a whole line is demand, a broken one supply, a dotted one the clearing price", LEGEND_WIDTH, 20)


def share_bar(part, whole, words):
    """How much of all a part is."""
    filled = 120 * max(0, min(part, whole)) / whole if whole > 0 else 0
    parts = [bar("cap", 0.5, 0.5, 120, 11), bar("bar", 0.5, 0.5, filled, 11)]
    return drawing(parts, words, 121, 12)

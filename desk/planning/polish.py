"""Fewer bends, then less ink, for a plan that was found: each net is laid again, alone and with those in its way."""
from __future__ import annotations

from typing import TYPE_CHECKING

from desk.planning.ends import cost, legs, near

if TYPE_CHECKING:
    from desk.planning.search import Search

# a net is laid anew with at most so many others
MOST = 4
# rounds without a gain that end it
IDLE = 2


def polish(search: Search) -> None:
    """Makes the best plan of a search better, as far as that goes."""
    layout = search.layout
    search.guard_all(pins_only=True)
    layout.clear()
    for net, way in search.best.items():
        layout.book(net, way)
    for net in search.order:
        if net not in layout.ways:
            layout.guard(net)
    each_again(search)
    search.guard_all(pins_only=False)
    idle = 0
    while idle < IDLE:
        idle += 1
        worse = [net for net, way in layout.ways.items() if cost(way) > cost(search.alone.get(net) or way)]
        for net in sorted(worse, key=lambda net: (-excess(search, net), search.chance.unit())):
            if bettered(search, net):
                idle = 0


def excess(search: Search, net: int) -> int:
    """How many corners a net has more than it would have alone."""
    return len(search.layout.ways[net]) - len(search.alone[net] or ())


def each_again(search: Search) -> None:
    """Lays each net again, by itself, while that gives fewer bends or less ink."""
    layout, more = search.layout, True
    while more:
        more = False
        for net in sorted(layout.ways, key=lambda net: (-len(layout.ways[net]), net)):
            old = layout.ways[net]
            layout.bench.lift(net)
            new = layout.bench.find(net)
            if new and cost(new) < cost(old) and layout.bench.book(net, new):
                layout.ways[net], more = new, True
            else:
                layout.bench.book(net, old)
        more = search.keep() or more


def bettered(search: Search, net: int) -> bool:
    """Lays a net as if it were alone, and those in its way after it: whether the plan is better by that. It is left as
    it was where it is not."""
    layout, wish = search.layout, search.alone[net]
    others = [other for other in layout.ways
              if other != net and wish and near(legs(wish), legs(layout.ways[other]), search.reach)]
    if len(others) > MOST:
        return False
    then = layout.now()
    for other in others:
        layout.lift(other)
    layout.lift(net)
    good = layout.lay(net)
    for other in sorted(others, key=lambda other: cost(search.alone[other] or ())):
        good = good and layout.lay(other)
    if good and search.keep():
        each_again(search)
        return True
    layout.back(then)
    return False

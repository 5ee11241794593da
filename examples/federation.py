#!/usr/bin/env python3
"""Makes a federation of cooperatives, as text: a sheet of some 3,000 items, calls on it, and what they show.

    federation.py FOLDER [COOPERATIVES]

It writes to the folder

    sheet.txt     the sheet, for maker.py
    day.txt       a day, for maker.py
    day.out       what the day program prints
    office.in     commands for the office
    office.out    what the office shows for them, but for its first line and the entries that posts and swaps show

There are 34 cooperatives unless another number is given, up to 46, in three regions. Each has a share of the total
allowable catch and 16 boats. Of a boat the quota, the landings and what it got by swaps are posted; what it may land and
what it has left are figures. Cooperatives, regions and the federation have totals. The sheet of 34 is short enough for the
day program. That of 46 is not, and is opened by the library all the same.

The values in day.out and office.out are sums that this script makes over the boats themselves. It knows nothing of sheets,
marks or what is stored.
"""

import sys
from pathlib import Path

REGIONS = {
    "North": "Vardo Vadso Gamvik Masoy Hasvik Loppa Alta Tromso Karlsoy Senja Andoy Bo Rost Vaeroy Narvik Bodo",
    "Middle": "Vega Leka Vikna Osen Roan Bjugn Froya Hitra Smola Aure Averoy Fraena Sandoy Giske Runde",
    "South": "Selje Kinn Askvoll Solund Gulen Fedje Lindas Sund Tysnes Fitjar Bomlo Stord Utsira Karmoy Sokndal",
}
COOPERATIVES = 34
BOATS = 16
OFFICE_BOATS = 2  # of each cooperative, those that the office is told of
TAC = 90_000_000_000  # grams
WHOLE = 10_000  # ten-thousandths
TOTALS = ("quota", "land", "swap", "left")


def total(values):
    """The sum of what is recorded; None if nothing is."""
    recorded = [value for value in values if value is not None]
    return sum(recorded) if recorded else None


def difference(first, second):
    return None if first is None and second is None else (first or 0) - (second or 0)


class Boat:
    """What is posted of a boat, in grams; None is nothing recorded."""

    def __init__(self):
        self.quota = self.land = self.swap = None

    def report(self, cooperative, number):
        spread = 31 * cooperative + 17 * number
        self.quota = 90_000_000 + 1_250_000 * (spread % 53)
        self.land = None if spread % 11 == 0 else 4_321_000 * (spread % 29)

    @property
    def may(self):
        return total((self.quota, self.swap))

    @property
    def left(self):
        return difference(self.may, self.land)


class Cooperative:
    """The first boats, so many as are reporting, have something recorded."""

    def __init__(self, number, name, reporting):
        self.name = name
        self.share = 150 + 7 * (number % 17)
        self.boats = {f"{name}-{k:02}": Boat() for k in range(1, BOATS + 1)}
        for k, boat in enumerate(list(self.boats.values())[:reporting], 1):
            boat.report(number, k)

    @property
    def allot(self):
        return TAC * self.share // WHOLE


def federation(count, reporting):
    """Regions with their cooperatives, which are taken from the regions in turn."""
    names = {region: words.split() for region, words in REGIONS.items()}
    chosen = {region: [] for region in REGIONS}
    number = 0
    for place in range(max(map(len, names.values()))):
        for region in REGIONS:
            if place < len(names[region]) and number < count:
                chosen[region].append(Cooperative(number, names[region][place], reporting))
                number += 1
    return chosen


def boats_of(cooperatives):
    return [boat for cooperative in cooperatives for boat in cooperative.boats.values()]


def items_of(regions):
    """The items in their order: name, the line of the sheet after it, and the value."""
    for region, cooperatives in regions.items():
        yield from items_of_region(region, cooperatives)
    everyone = [cooperative for cooperatives in regions.values() for cooperative in cooperatives]
    for word in TOTALS:
        parents = " ".join(f"{region}.{word}" for region in regions)
        yield f"All.{word}", f"sum keep renew = {parents}", total_of(everyone, word)
    yield "All.unused", "difference nokeep defer = tac All.land", difference(TAC, total_of(everyone, "land"))


def total_of(cooperatives, word):
    return total(getattr(boat, word) for boat in boats_of(cooperatives))


def items_of_region(region, cooperatives):
    for cooperative in cooperatives:
        yield from items_of_cooperative(cooperative)
    for word in TOTALS:
        parents = " ".join(f"{cooperative.name}.{word}" for cooperative in cooperatives)
        yield f"{region}.{word}", f"sum keep defer = {parents}", total_of(cooperatives, word)


def items_of_cooperative(cooperative):
    name = cooperative.name
    yield f"{name}.share", None, cooperative.share
    yield f"{name}.allot", f"share keep defer = tac {name}.share", cooperative.allot
    for boat_name, boat in cooperative.boats.items():
        for word in ("quota", "land", "swap"):
            yield f"{boat_name}.{word}", None, getattr(boat, word)
        yield f"{boat_name}.may", f"sum nokeep defer = {boat_name}.quota {boat_name}.swap", boat.may
        yield f"{boat_name}.left", f"difference nokeep defer = {boat_name}.may {boat_name}.land", boat.left
    for word in TOTALS:
        parents = " ".join(f"{boat_name}.{word}" for boat_name in cooperative.boats)
        yield f"{name}.{word}", f"sum keep defer = {parents}", total_of([cooperative], word)
    free = difference(cooperative.allot, total_of([cooperative], "quota"))
    yield f"{name}.free", f"difference nokeep defer = {name}.allot {name}.quota", free


class Ledger:
    """The items by name, as they stand."""

    def __init__(self, regions):
        self.regions = regions
        self.names = [name for name, _, _ in self.items()]
        self.numbers = {name: number for number, name in enumerate(self.names)}

    def items(self):
        return [("tac", None, TAC), *items_of(self.regions)]

    def values(self):
        return {name: value for name, _, value in self.items()}

    def boat(self, name):
        cooperatives = (c for chosen in self.regions.values() for c in chosen)
        return next(c.boats[name] for c in cooperatives if name in c.boats)

    def swap(self, giver, taker, quantity):
        for name, grams in ((giver, -quantity), (taker, quantity)):
            boat = self.boat(name)
            boat.swap = (boat.swap or 0) + grams


def word_of(value):
    return "-" if value is None else str(value)


def sheet_text(ledger):
    for name, figure, _ in ledger.items():
        yield f"figure {name} {figure}" if figure else f"entry {name}"


def totals_of(ledger, words=TOTALS):
    """The names of the totals, the federation's first."""
    for owner in ("All", *ledger.regions):
        for word in words:
            yield f"{owner}.{word}"


def morning(ledger):
    """The posts that begin the day: all entries that have something recorded."""
    for name, figure, value in ledger.items():
        if figure is None and value is not None:
            yield name, value


def swaps_of(ledger):
    """Three swaps: within a cooperative, within a region, and between two regions."""
    first, second = (chosen[0] for chosen in list(ledger.regions.values())[:2])
    other = list(ledger.regions.values())[0][1]
    a, b = list(first.boats)[:2]
    yield a, b, 5_000_000
    yield b, next(iter(other.boats)), 2_500_000
    yield a, next(iter(second.boats)), 1_250_000


def day_of(ledger):
    """Lines of the day and what the day program prints. It has no swap: one is made by two posts."""

    def asks(names):
        values = ledger.values()
        return [(f"ask {name}", f"ASK {ledger.numbers[name]} {word_of(values[name])}") for name in names]

    lines = [(f"post {name} {value}", "OK") for name, value in morning(ledger)]
    lines += asks([*totals_of(ledger), "All.unused"])
    for giver, taker, quantity in swaps_of(ledger):
        ledger.swap(giver, taker, quantity)
        for boat in (giver, taker):
            lines.append((f"post {boat}.swap {ledger.boat(boat).swap}", "OK"))
    lines += asks([*totals_of(ledger), "All.unused"])
    for cooperatives in ledger.regions.values():
        for cooperative in cooperatives:
            lines += asks(f"{cooperative.name}.{word}" for word in (*TOTALS, "free"))
    lines += [("post All.left 0", "NO 12"), (f"ask #{len(ledger.names)}", "NO 11")]
    return lines


def office_of(ledger):
    """Commands, and what the office shows for them, but for the posts, which show the entry."""
    for name, value in morning(ledger):
        yield f"post {name} {value}", None
    names = list(totals_of(ledger))
    yield "board " + " ".join(names), board_lines(ledger, names)
    for giver, taker, quantity in swaps_of(ledger):
        ledger.swap(giver, taker, quantity)
        yield f"swap {giver}.swap {taker}.swap {quantity}", None
    values = ledger.values()
    for name in ("All.swap", "All.left", "All.unused"):
        yield f"ask {name}", [f"{name} = {word_of(values[name])}"]
    yield "board " + " ".join(names), board_lines(ledger, names)
    yield "close", close_lines(ledger)


def board_lines(ledger, names):
    values = ledger.values()
    return [f"{name:<16}  {word_of(values[name]):>17}" for name in names]


def close_lines(ledger):
    lines = [f"item  {'name':<16}  {'value':>17}"]
    for number, (name, value) in enumerate(ledger.values().items()):
        lines.append(f"{number:>4}  {name:<16}  {word_of(value):>17}")
    return lines


def write(path, lines):
    path.write_text("".join(f"{line}\n" for line in lines))


def main(words):
    counts = [int(word) for word in words[1:] if word.isdigit()]
    most = sum(len(names.split()) for names in REGIONS.values())
    if not words or len(words) > 2 or len(counts) != len(words) - 1 or not all(6 <= count <= most for count in counts):
        print(__doc__, file=sys.stderr)
        return 2
    folder = Path(words[0])
    folder.mkdir(parents=True, exist_ok=True)
    count = counts[0] if counts else COOPERATIVES
    ledger = Ledger(federation(count, BOATS))
    write(folder / "sheet.txt", sheet_text(ledger))
    day = day_of(ledger)
    write(folder / "day.txt", (line for line, _ in day))
    write(folder / "day.out", (shown for _, shown in day))
    office = list(office_of(Ledger(federation(count, OFFICE_BOATS))))
    write(folder / "office.in", (command for command, _ in office))
    write(folder / "office.out", (line for _, shown in office if shown is not None for line in shown))
    return 0


if __name__ == "__main__":
    try:
        sys.exit(main(sys.argv[1:]))
    except OSError as error:
        sys.exit(f"{error.filename}: {error.strerror}")

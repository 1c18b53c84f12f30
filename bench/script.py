"""Writes a script of visits to pages, the same number to each, in an order that is always the same:

    python3 script.py LINES PAGES

LINES is a multiple of 20 and of PAGES.
"""

import sys

LINK, TYPED, DOWNLOAD, RELOAD = 1, 2, 7, 9
DAY = 86_400 * 1_000_000


class Sequence:
    """The numbers x -> 16807 x mod 2^31 - 1."""

    def __init__(self):
        self.state = 1

    def below(self, bound):
        self.state = self.state * 16807 % (2**31 - 1)
        return self.state % bound


def transition(numbers):
    """Of a hundred visits some 70 are links, 10 typed, 9 reloads, 6 downloads, and 1 is of each other transition."""
    n = numbers.below(100)
    for bound, number in (70, LINK), (80, TYPED), (89, RELOAD), (95, DOWNLOAD):
        if n < bound:
            return number
    return (3, 4, 5, 6, 8)[n - 95]


def dates(numbers):
    """One in eight is the one before it, the others go on by up to ten minutes; one in fifty is late by up to eight
    days."""
    now = 1_700_000_000_000_000
    while True:
        if numbers.below(8) > 0:
            now += numbers.below(600_000_000)
        yield now if numbers.below(50) > 0 else now - numbers.below(8 * DAY)


def pages(lines, count):
    """x -> 1041 x + 7919 mod lines takes each value below lines once, as 1040 is a multiple of 20."""
    x = 0
    for _ in range(lines):
        x = (1041 * x + 7919) % lines
        yield x * count // lines


def main():
    lines, count = int(sys.argv[1]), int(sys.argv[2])
    numbers = Sequence()
    for page, date in zip(pages(lines, count), dates(numbers)):
        url = f"https://www.site{page % 97}.example/articles/{page}.html"
        print("visit", url, transition(numbers), date, sep="\t")


main()

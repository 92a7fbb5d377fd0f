#!/usr/bin/env python3
"""Prints how long slots lie idle in a model of a crew, for several rules by which it chooses the child that it waits for.

    bench/orders.py [--children N] [--window W] [--runs R] [DEVIATION]..

N children of one list run, W at once. Each takes a time that deviates from the mean by the part DEVIATION of it (one standard
deviation). If one of those in flight has ended, the crew takes it, the oldest first. If none has, it waits for one. The columns are the
rules by which it chooses that one:

  oldest           the one that was started first
  expected first   the one whose expected end, its start and the mean, comes first
  overdue last     the same, but those whose expected end has passed come after all others
  ends first       whichever ends first, which the crew would have to be told by the system

A new child is started when one was taken. A row has the idle share for each rule, the mean of R runs: the part of W slots and of the time
of the run in which no child ran. All rules have the same times. Nothing is measured, so it says the same on each machine.
"""
import argparse
import random


def oldest(now, flying):
    return min(flying, key=lambda child: child.number)


def expected_first(now, flying):
    return min(flying, key=lambda child: (child.start + 1, child.number))


def overdue_last(now, flying):
    return min(flying, key=lambda child: (child.start + 1 < now, child.start + 1, child.number))


def ends_first(now, flying):
    return min(flying, key=lambda child: (child.end, child.number))


RULES = (("oldest", oldest), ("expected first", expected_first), ("overdue last", overdue_last), ("ends first", ends_first))


class Child:
    def __init__(self, number, start, time):
        self.number, self.start, self.end = number, start, start + time


def idle_share(times, window, rule):
    """Returns the idle share of one run whose children take these times."""
    now, flying, waiting = 0.0, [], list(enumerate(times))[::-1]
    while flying or waiting:
        while waiting and len(flying) < window:
            number, time = waiting.pop()
            flying.append(Child(number, now, time))
        ended = [child for child in flying if child.end <= now]
        taken = oldest(now, ended) if ended else rule(now, flying)
        now = max(now, taken.end)
        flying.remove(taken)
    return 1 - sum(times) / (window * now)


def times_of(random, children, deviation):
    """Returns a time for each child. The mean is 1, and none is below a tenth of it."""
    return [max(0.1, random.gauss(1, deviation)) for _ in range(children)]


def main():
    parser = argparse.ArgumentParser(description=__doc__, formatter_class=argparse.RawDescriptionHelpFormatter)
    parser.add_argument("--children", type=int, default=256)
    parser.add_argument("--window", type=int, default=16)
    parser.add_argument("--runs", type=int, default=1000)
    parser.add_argument("deviations", nargs="*", type=float, default=[0.1, 0.2, 0.3, 0.5])
    given = parser.parse_args()
    print(f"{given.children} children, {given.window} at once, {given.runs} runs: percent of the slots' time idle")
    print("  ".join(["deviation", *(f"{name:>14}" for name, _ in RULES)]))
    for deviation in given.deviations:
        source = random.Random(1)
        runs = [times_of(source, given.children, deviation) for _ in range(given.runs)]
        shares = [sum(idle_share(times, given.window, rule) for times in runs) / given.runs for _, rule in RULES]
        print("  ".join([f"{deviation:>9.0%}", *(f"{share:>14.1%}" for share in shares)]))


main()

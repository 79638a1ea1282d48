#!/usr/bin/env python3
"""Writes the fixed histories: yard.hex, stdin and stdout of each folder here.

usage: tests/data/make.py REFERENCE

yard.hex and stdin are written by this script, stdout by `REFERENCE judge`.
Of each line this script also says what the reply begins with, and it stops
when the reference says otherwise.
"""

import pathlib
import subprocess
import sys

HERE = pathlib.Path(__file__).resolve().parent

MOST_STOPS = 1024
MOST_LANES = 8192
HIGHEST_PLACE = 4095
TOO_HIGH = 4096
LONGEST = 36000

FULL_LANE = (0, 0)
LANE_LESS_ONE = (1, 0)


def fixed_gap(gap):
    return (2, gap)


def refused(number, one=0, two=0):
    """The reply of a refusal other than 17."""
    return "%02X%04X%04X" % (number, one, two)


ACCEPTED = "00"
RING = "11"


class History:
    """The lines of one folder, each with what its reply begins with."""

    def __init__(self):
        self.lanes = {}
        self.yard_newline = True
        self.carriers = 0
        self.stop_numbers = {}
        self.lines = []
        self.replies = []
        self.last_newline = True

    # The yard.

    def lane(self, start, end, travel):
        self.lanes[start, end] = travel

    def both_ways(self, one, two, travel):
        self.lane(one, two, travel)
        self.lane(two, one, travel)

    def yard(self):
        lines = ["06%04X%04X%04X" % (*ends, travel) for ends, travel in sorted(self.lanes.items())]
        return "\n".join(lines).encode() + (b"\n" if self.yard_newline and lines else b"")

    # The lines. A number as the answer stands for the reply of a refusal.
    # Without an answer a carrier or a stop is to be accepted.

    def line(self, line, answer):
        self.lines.append(line if isinstance(line, bytes) else line.encode())
        self.replies.append(refused(answer) if isinstance(answer, int) else answer)

    def carrier(self, start, goal, answer=None):
        if answer is None:
            answer = "00%04X" % self.carriers
            self.stop_numbers[self.carriers, start] = len(self.stop_numbers)
            self.carriers += 1
        self.line("01%04X%04X" % (start, goal), answer)

    def stop(self, carrier, place, answer=None):
        if answer is None:
            answer = "00%04X" % len(self.stop_numbers)
            self.stop_numbers[carrier, place] = len(self.stop_numbers)
        self.line("02%02X%04X" % (carrier, place), answer)

    def precedence(self, first, second, place, answer=ACCEPTED):
        self.line("03%02X%02X%04X" % (first, second, place), answer)

    def strike(self, first, second, place, answer=ACCEPTED):
        self.line("04%02X%02X%04X" % (first, second, place), answer)

    def judge(self, rule, answer=ACCEPTED):
        self.line("05%02X%04X" % rule, answer)

    def stdin(self):
        return b"\n".join(self.lines) + (b"\n" if self.last_newline else b"")

    # The files.

    def write(self, name, reference):
        folder = HERE / name
        folder.mkdir(exist_ok=True)
        (folder / "yard.hex").write_bytes(self.yard())
        (folder / "stdin").write_bytes(self.stdin())
        done = subprocess.run(
            [reference, "judge"], cwd=folder, input=self.stdin(), stdout=subprocess.PIPE, check=True
        )
        (folder / "stdout").write_bytes(done.stdout)
        self.compare(name, done.stdout.decode().splitlines())

    def compare(self, name, replies):
        if len(replies) != len(self.lines):
            sys.exit("%s: %d lines, %d replies" % (name, len(self.lines), len(replies)))
        for number, (line, begin, reply) in enumerate(zip(self.lines, self.replies, replies), 1):
            if not reply.startswith(begin):
                sys.exit("%s, line %d: %r: %s… said, %s meant" % (name, number, line, reply[:40], begin))
        print("%s: %d lines" % (name, len(self.lines)))


# The worked examples.

FOUR_RULES = [FULL_LANE, LANE_LESS_ONE, fixed_gap(0), fixed_gap(1)]


def lay_yard_p(history):
    for one, two, travel in [(0, 1, 3), (1, 2, 2), (2, 3, 4), (1, 4, 5)]:
        history.both_ways(one, two, travel)


def arrivals(*ticks):
    return "00%04X" % len(ticks) + "".join("%08X" % tick for tick in ticks)


def worked():
    """The yard P and the sheet S, changed and judged under four rules."""
    h = History()
    lay_yard_p(h)

    def judge_four(answer):
        for rule in FOUR_RULES:
            h.judge(rule, answer)

    def judge_s():
        h.judge(FULL_LANE, arrivals(0, 0, 8, 10, 14, 2, 7))
        h.judge(LANE_LESS_ONE, arrivals(0, 0, 7, 9, 13, 2, 7))
        h.judge(fixed_gap(0), arrivals(0, 0, 3, 5, 9, 2, 7))
        h.judge(fixed_gap(1), arrivals(0, 0, 4, 6, 10, 2, 7))

    judge_four(arrivals())
    h.carrier(0, 3)
    h.carrier(2, 4)
    judge_four(refused(13, 0))
    for place in [1, 2, 3]:
        h.stop(0, place)
    judge_four(refused(13, 1))
    h.stop(1, 1)
    h.stop(1, 4)
    judge_four(refused(15, 1, 3))
    h.precedence(1, 0, 2, "000001")
    judge_four(refused(15, 2, 5))
    h.precedence(1, 0, 1, "000002")
    judge_s()
    for gap in [2, 3, 4, 5, 6, 100, LONGEST]:
        h.judge(fixed_gap(gap))

    # Refused calls change nothing.
    h.precedence(0, 1, 2, 9)
    h.precedence(0, 1, 1, 10)
    h.precedence(0, 1, 3, 8)
    h.strike(0, 1, 1, 11)
    h.stop(0, 5, 4)
    h.stop(2, TOO_HIGH, 2)
    h.carrier(0, 7, 3)
    judge_s()

    # Struck, entered the other way, and put back.
    h.strike(1, 0, 1, "000001")
    judge_four(refused(15, 2, 5))
    h.precedence(0, 1, 1, "000002")
    judge_four(refused(16, 1, 2))
    h.strike(0, 1, 1, "000001")
    h.strike(1, 0, 2, "000000")
    judge_four(refused(15, 1, 3))
    h.precedence(1, 0, 1, "000001")
    h.precedence(1, 0, 2, "000002")
    judge_s()

    # A third carrier against the first: there is no room for both to pass.
    h.carrier(3, 0)
    judge_four(refused(13, 2))
    for place in [2, 1, 0]:
        h.stop(2, place)
    judge_four(refused(15, 0, 10))
    h.precedence(2, 0, 0, 9)
    h.precedence(0, 2, 0, "000003")
    judge_four(refused(15, 1, 8))
    h.precedence(1, 2, 2, "000004")
    judge_four(refused(15, 2, 9))
    h.precedence(0, 2, 1, "000005")
    judge_four(refused(15, 3, 8))
    h.precedence(0, 2, 2, "000006")
    judge_four(refused(15, 4, 7))
    h.precedence(2, 0, 3, "000007")
    judge_four(refused(15, 5, 9))
    h.precedence(1, 2, 1, "000008")
    judge_four(refused(16, 3, 7))
    h.strike(0, 2, 2, "000007")
    h.precedence(2, 0, 2, "000008")
    judge_four(refused(16, 2, 8))
    h.strike(0, 2, 1, "000007")
    h.precedence(2, 0, 1, "000008")
    judge_four(refused(16, 0, 9))

    # A carrier that starts at its goal.
    h.carrier(6, 6)
    h.stop(3, 0, 4)
    h.stop(3, TOO_HIGH, 5)
    judge_four(refused(16, 0, 9))
    return h


def triangle():
    """The triangle, whose one ring has a lag sum of 0 or above 0 by the rule."""
    h = History()
    for start, end in [(0, 1), (1, 2), (2, 0)]:
        h.lane(start, end, 1)
    for start, end in [(0, 1), (1, 2), (2, 0)]:
        h.carrier(start, end)
    for carrier, place in enumerate([1, 2, 0]):
        h.stop(carrier, place)
    for count, (first, second, place) in enumerate([(1, 0, 1), (2, 1, 2), (0, 2, 0)], 1):
        h.precedence(first, second, place, "00%04X" % count)
    ring = "110003000300050004"
    ones = arrivals(0, 0, 0, 1, 1, 1)
    h.judge(FULL_LANE, ring)
    h.judge(LANE_LESS_ONE, ones)
    h.judge(fixed_gap(0), ones)
    h.judge(fixed_gap(1), ring)
    h.judge(fixed_gap(LONGEST), ring)
    h.precedence(0, 1, 1, 9)
    h.strike(1, 0, 1, "000002")
    h.judge(FULL_LANE, refused(15, 1, 3))
    h.precedence(1, 0, 1, "000003")
    h.judge(FULL_LANE, ring)
    h.judge(LANE_LESS_ONE, ones)
    return h


# The limits.

GROUPS = 7
GROUP_CARRIERS = 8
CORRIDOR = 10
PAIR_CORRIDOR = 85


class Places:
    """Hands out places that nobody has yet."""

    def __init__(self, first):
        self.next = first

    def take(self, count):
        self.next += count
        return list(range(self.next - count, self.next))


class Limits:
    """64 carriers, 1,024 stops, 2,048 precedences and 8,192 lanes.

    Carrier 0 starts at its goal. Carriers 1 to 56 are seven groups of eight,
    each group with a corridor of ten places that four carriers take one way
    and four the other; 57 and 58 share a corridor of 85 places. Of two who
    meet there, the lower number goes first. 59 to 61 are a triangle. 62 takes
    a step without a lane, and 63 never reaches its goal.
    """

    def __init__(self):
        self.h = History()
        self.places = Places(100)
        self.routes = {0: [6]}
        self.meetings = []
        self.build_groups()
        self.build_pair()

    def build_groups(self):
        for group in range(GROUPS):
            corridor = self.places.take(CORRIDOR)
            numbers = [1 + index * GROUPS + group for index in range(GROUP_CARRIERS)]
            for one, two in zip(corridor, corridor[1:]):
                self.h.both_ways(one, two, self.travel(group, one))
            for index, carrier in enumerate(numbers):
                start, goal = self.places.take(2)
                way = corridor if index % 2 == 0 else corridor[::-1]
                self.h.lane(start, way[0], self.travel(group, start))
                self.h.lane(way[-1], goal, self.travel(group, goal))
                self.routes[carrier] = [start, *way, goal]
            self.meet(numbers, corridor)

    def travel(self, group, place):
        return {0: LONGEST, 1: 1}.get(group, 1 + place * 7 % 11)

    def build_pair(self):
        corridor = self.places.take(PAIR_CORRIDOR)
        for carrier in (57, 58):
            start, goal = self.places.take(2)
            route = [start, *corridor, goal]
            for one, two in zip(route, route[1:]):
                self.h.lane(one, two, 1 + one * 5 % 7)
            self.routes[carrier] = route
        self.meet([57, 58], corridor)

    def meet(self, numbers, corridor):
        for index, first in enumerate(numbers):
            for second in numbers[index + 1:]:
                self.meetings += [(first, second, place) for place in corridor]

    def fill_yard(self):
        """Adds lanes far from the routes until there are 8,192."""
        for step in (1, -1, 2):
            for place in range(1002, HIGHEST_PLACE - 2):
                if len(self.h.lanes) == MOST_LANES:
                    return
                self.h.lane(place, place + step, 1 + place * 13 % LONGEST)

    def judge_all(self, answer=ACCEPTED):
        for rule in (FULL_LANE, LANE_LESS_ONE, fixed_gap(0), fixed_gap(LONGEST)):
            self.h.judge(rule, answer)

    def judge_undecided(self, *stops):
        self.judge_all(refused(15, *sorted(self.h.stop_numbers[stop] for stop in stops)))

    def judge_head_on(self, *stops):
        self.judge_all(refused(16, *sorted(self.h.stop_numbers[stop] for stop in stops)))

    def history(self):
        self.empty_sheet()
        self.start_at_goal()
        self.enter_carriers()
        self.enter_stops()
        self.enter_precedences()
        self.enter_triangle()
        self.at_most_precedences()
        self.head_on()
        self.one_more_precedence()
        self.last_carrier()
        self.at_most_stops()
        self.fill_yard()
        assert len(self.h.lanes) == MOST_LANES
        return self.h

    def empty_sheet(self):
        h = self.h
        self.judge_all("000000")
        h.carrier(TOO_HIGH, 0, 5)
        h.carrier(0, TOO_HIGH, 5)
        h.carrier(65535, 65535, 5)
        h.stop(0, 0, 2)
        h.stop(0, TOO_HIGH, 2)  # 2 before 5
        h.precedence(0, 1, 0, 2)
        h.precedence(0, 0, 0, 2)  # 2 before 7
        h.strike(0, 1, 0, 2)
        h.strike(0, 0, 0, 2)  # 2 before 7

    def start_at_goal(self):
        h = self.h
        h.carrier(6, 6)
        self.judge_all("00000100000000")
        h.stop(0, 7, 4)
        h.stop(0, 6, 4)  # 4 before 6
        h.stop(0, TOO_HIGH, 5)  # 5 before 4
        h.stop(1, TOO_HIGH, 2)  # 2 before 5
        h.precedence(0, 1, 6, 2)
        h.precedence(1, 0, 6, 2)
        h.precedence(1, 1, 6, 2)  # 2 before 7
        h.precedence(0, 0, 7, 7)  # 7 before 8
        h.precedence(0, 0, 6, 7)
        h.strike(1, 1, 6, 2)  # 2 before 7
        h.strike(0, 0, 6, 7)  # 7 before 11
        h.carrier(6, 7, 3)
        h.carrier(7, 6, 3)
        h.carrier(6, TOO_HIGH, 5)  # 5 before 3
        h.carrier(TOO_HIGH, 6, 5)  # 5 before 3

    def enter_carriers(self):
        h = self.h
        for carrier in range(1, 59):
            route = self.routes[carrier]
            h.carrier(route[0], route[-1])
        h.carrier(self.routes[58][0], 8, 3)
        h.carrier(8, self.routes[58][-1], 3)
        h.stop(59, 8, 2)
        h.precedence(1, 59, 8, 2)
        h.precedence(59, 1, 8, 2)
        h.strike(1, 59, 8, 2)
        h.strike(59, 1, 8, 2)
        goal, start = self.routes[1][-1], self.routes[8][0]
        h.precedence(1, 8, goal, 8)  # 8 before 9: the goal of first
        h.precedence(1, 8, start, 8)  # 8 before 9: the start of second
        h.precedence(1, 8, 65535, 8)
        self.judge_all(refused(13, 1))

    def enter_stops(self):
        """One stop of each carrier in turn, so that numbers mix."""
        h = self.h
        longest = max(len(route) for route in self.routes.values())
        for step in range(1, longest):
            for carrier in range(1, 59):
                route = self.routes[carrier]
                if step < len(route):
                    h.stop(carrier, route[step])
            if step == 1:
                h.stop(1, self.routes[1][0], 6)
                h.stop(1, self.routes[1][1], 6)
                h.stop(1, TOO_HIGH, 5)
                h.stop(1, 65535, 5)
                self.judge_all(refused(13, 1))
        h.stop(1, 8, 4)
        h.stop(1, self.routes[1][3], 4)  # 4 before 6
        h.stop(1, TOO_HIGH, 5)  # 5 before 4
        place = self.routes[1][1]
        self.judge_undecided((1, place), (15, place))

    def enter_precedences(self):
        h = self.h
        for count, (first, second, place) in enumerate(self.meetings, 1):
            h.precedence(first, second, place, "00%04X" % count)
            if count == 1:
                h.precedence(first, second, place, 10)
                h.precedence(second, first, place, 10)
                h.strike(second, first, place, 11)
                h.strike(first, second, TOO_HIGH, 11)
                h.strike(first, first, place, 7)  # 7 before 11
                h.strike(255, 255, place, 2)  # 2 before 7
        self.judge_all()

    def enter_triangle(self):
        h = self.h
        one, two = self.places.take(2)
        corners = [one, two, HIGHEST_PLACE]
        self.corners = corners
        h.carrier(TOO_HIGH, two, 5)
        for index, carrier in enumerate((59, 60, 61)):
            start, goal = corners[index], corners[(index + 1) % 3]
            h.lane(start, goal, 5)
            h.carrier(start, goal)
        h.carrier(HIGHEST_PLACE, 8, 3)
        h.carrier(8, HIGHEST_PLACE, 3)
        h.stop(60, TOO_HIGH, 5)
        for index, carrier in enumerate((59, 60, 61)):
            h.stop(carrier, corners[(index + 1) % 3])
        h.precedence(59, 60, two, 9)
        h.precedence(60, 59, two)
        h.precedence(59, 60, two, 9)  # 9 before 10
        h.precedence(60, 59, two, 10)
        h.precedence(61, 60, HIGHEST_PLACE)
        h.precedence(59, 61, one, "000800")
        self.judge_triangle()

    def judge_triangle(self):
        """The triangle is the only ring, and its lag sum depends on the rule."""
        h = self.h
        h.judge(FULL_LANE, RING)
        h.judge(LANE_LESS_ONE)
        h.judge(fixed_gap(0))
        h.judge(fixed_gap(4))
        h.judge(fixed_gap(5), RING)
        h.judge(fixed_gap(LONGEST), RING)

    def at_most_precedences(self):
        """2,048 stand; every meeting is decided."""
        h = self.h
        first, second, place = self.meetings[100]
        two = self.corners[1]
        h.precedence(first, second, place, 10)  # 10 before 1
        h.precedence(second, first, place, 10)
        h.precedence(59, 60, two, 9)  # 9 before 10 and 1
        h.precedence(first, second, two, 8)
        h.precedence(first, first, place, 7)
        h.precedence(first, 62, place, 2)
        # Struck and entered again, at the end of the list.
        h.strike(first, second, place, "0007FF")
        h.strike(first, second, place, 11)
        h.precedence(first, second, place, "000800")
        h.precedence(first, second, place, 10)

    def head_on(self):
        """Two of group 2, who go opposite ways, are set head on and put back."""
        h = self.h
        one, other = 1 + 2, 1 + GROUPS + 2
        before, place = self.routes[one][3:5]
        first, second, last = self.meetings[-1]
        h.strike(one, other, place, "0007FF")
        self.judge_undecided((one, place), (other, place))  # 15 before 17
        h.precedence(other, one, place, "000800")
        self.judge_head_on((one, before), (other, place))  # 16 before 17
        h.strike(first, second, last, "0007FF")
        self.judge_undecided((first, last), (second, last))  # 15 before 16
        h.precedence(first, second, last, "000800")
        self.judge_head_on((one, before), (other, place))
        h.strike(other, one, place, "0007FF")
        h.precedence(one, other, place, "000800")
        self.judge_triangle()

    def one_more_precedence(self):
        """Carrier 62 comes to a place of 57 and 58, over no lane."""
        h = self.h
        start, goal = self.places.take(2)
        place = self.routes[57][40]
        self.crossing = place
        h.lane(place, goal, 3)
        h.carrier(start, goal)
        self.judge_all(refused(13, 62))
        h.stop(62, place)
        h.stop(62, goal)
        missing = refused(14, h.stop_numbers[62, place])
        self.judge_all(missing)  # 14 before 15
        h.precedence(62, 57, place, 1)
        h.precedence(57, 62, place, 1)
        h.precedence(58, 62, place, 1)
        struck = self.meetings[777]
        h.strike(*struck, "0007FF")
        h.precedence(62, 57, place, "000800")
        h.precedence(58, 62, place, 1)
        h.precedence(*struck, 1)
        h.precedence(57, 62, place, 10)  # 10 before 1
        h.precedence(62, 57, place, 10)
        h.precedence(62, 57, goal, 8)
        h.strike(57, 62, place, 11)
        h.strike(62, 57, place, "0007FF")
        h.strike(62, 57, place, 11)
        h.precedence(*struck, "000800")
        h.precedence(62, 57, place, 1)
        self.judge_all(missing)

    def last_carrier(self):
        """The 64th carrier, with 857 stops on the sheet."""
        h = self.h
        self.start, self.goal, self.spare = self.places.take(3)
        h.carrier(self.start, self.goal)
        h.carrier(self.spare, self.spare, 1)
        h.carrier(self.start, self.spare, 1)  # 1 before 3
        h.carrier(self.spare, self.goal, 1)  # 1 before 3
        h.carrier(TOO_HIGH, self.spare, 5)  # 5 before 1
        h.carrier(self.start, TOO_HIGH, 5)  # 5 before 1 and 3
        h.stop(64, self.spare, 2)
        self.judge_all(refused(13, 63))  # 13 before 14

    def at_most_stops(self):
        h = self.h
        walk = self.places.take(MOST_STOPS - len(h.stop_numbers))
        for place in walk:
            h.stop(63, place)
        h.stop(63, self.spare, 1)
        h.stop(63, self.goal, 1)
        h.stop(63, self.start, 6)  # 6 before 1
        h.stop(63, walk[-1], 6)  # 6 before 1
        h.stop(62, self.spare, 4)  # 4 before 1
        h.stop(62, self.crossing, 4)  # 4 before 6 and 1
        h.stop(63, TOO_HIGH, 5)  # 5 before 1
        h.stop(64, self.spare, 2)  # 2 before 1
        h.carrier(self.spare, self.spare, 1)
        h.carrier(self.start, self.goal, 1)
        h.carrier(TOO_HIGH, TOO_HIGH, 5)
        # Precedences do not make the stops longer.
        struck = self.meetings[0]
        h.strike(*struck, "0007FF")
        h.precedence(62, 58, self.crossing, "000800")
        h.precedence(*struck, 1)
        self.judge_all(refused(13, 63))


def stops():
    """One carrier with all 1,024 stops, over lanes of the longest travel time.

    Its last arrival is the ceiling, and its replies are the longest there are.
    """
    h = History()
    for place in range(MOST_STOPS - 1):
        h.lane(place, place + 1, LONGEST)
    h.carrier(0, MOST_STOPS - 1)
    for place in range(1, MOST_STOPS):
        if place == MOST_STOPS - 1:
            h.judge(FULL_LANE, refused(13, 0))
            h.stop(0, place - 1, 6)
        h.stop(0, place)
    passed = arrivals(*[LONGEST * place for place in range(MOST_STOPS)])
    assert len(passed) == 8198
    for rule in (FULL_LANE, LANE_LESS_ONE, fixed_gap(0), fixed_gap(LONGEST)):
        h.judge(rule, passed)
    h.carrier(2000, 2001, 1)  # few carriers, but no stop is left
    h.carrier(0, 2001, 1)  # 1 before 3
    h.carrier(2000, MOST_STOPS - 1, 1)  # 1 before 3
    h.carrier(0, TOO_HIGH, 5)  # 5 before 1
    h.stop(0, 2000, 4)  # 4 before 1
    h.stop(0, 5, 4)
    h.stop(0, TOO_HIGH, 5)
    h.stop(1, 2000, 2)
    h.judge(FULL_LANE, passed)
    return h


# Damaged lines.

GOOD_LINES = {
    1: b"0100000003",
    2: b"02000001",
    3: b"0301000002",
    4: b"0401000002",
    5: b"0502000A",
    6: b"060000000100FF",
}
BAD_BYTES = [b"a", b"f", b"G", b"/", b":", b"@", b"`", b" ", b"\r", b"\x00", b"\x7f", b"\x80", b"\xff"]


def lines():
    h = History()
    lay_yard_p(h)
    h.yard_newline = False
    wrong_lengths(h)
    bad_bytes(h)
    unknown_kinds(h)
    rules_and_gaps(h)
    two_faults(h)
    long_lines(h)
    # None of all that has changed the sheet.
    h.line("0100000003", "000000")
    h.line("0100020004", "000001")
    for number, line in enumerate(["02000001", "02000002", "02000003", "02010001", "02010004"], 2):
        h.line(line, "00%04X" % number)
    h.line("0301000002", "000001")
    h.line("0301000001", "000002")
    h.line("0401000001\r", refused(22, 10))
    h.line("05000000", arrivals(0, 0, 8, 10, 14, 2, 7))
    h.line("", 23)
    # The last line has no newline.
    h.line("05010000", arrivals(0, 0, 7, 9, 13, 2, 7))
    h.last_newline = False
    return h


def wrong_lengths(h):
    for kind, good in GOOD_LINES.items():
        for length in range(71):
            if length == len(good):
                continue
            line = (good + b"0" * 71)[:length]
            even = length % 2 == 0 and 0 < length <= 64
            h.line(line, 24 if kind == 6 and even else 23)


def bad_bytes(h):
    for good in GOOD_LINES.values():
        for column in range(len(good)):
            for bad in BAD_BYTES:
                h.line(good[:column] + bad + good[column + 1:], refused(22, column))
        # Before the line and after it.
        for bad in BAD_BYTES:
            h.line(bad + good, refused(22, 0))
            h.line(good + bad, refused(22, len(good)))


def unknown_kinds(h):
    for kind in [0, 6, *range(7, 256)]:
        h.line("%02X" % kind, 24)
        h.line("%02X000000" % kind, 24)
        h.line("%02X00000000" % kind, 24)
    h.line(GOOD_LINES[6], 24)
    h.line("F" * 64, 24)


def rules_and_gaps(h):
    for rule in (0x00, 0x01):
        h.line("05%02X0000" % rule, "000000")
        for gap in (1, 255, 256, 36000, 36001, 65535):
            h.line("05%02X%04X" % (rule, gap), 25)
    for gap in (0, 1, 255, 256, 35999, 36000):
        h.line("0502%04X" % gap, "000000")
    for gap in (36001, 36002, 40000, 65535):
        h.line("0502%04X" % gap, 25)
    for rule in (0x03, 0x04, 0x10, 0x80, 0xFF):
        for gap in (0, 1, 36000, 36001, 65535):
            h.line("05%02X%04X" % (rule, gap), 25)


def two_faults(h):
    h.line("G" * 65, 23)  # over 64 before a bad digit
    h.line("0" * 64 + "\r", 23)
    h.line("0" * 65, 23)  # over 64 before an unknown kind
    h.line("G" * 64, refused(22, 0))
    h.line("0" * 63 + "g", refused(22, 63))
    h.line("01G", refused(22, 2))  # a bad digit before an odd number
    h.line("G", refused(22, 0))
    h.line("00G0", refused(22, 2))  # a bad digit before an unknown kind
    h.line("G1", refused(22, 0))
    h.line("0100x0y0z0", refused(22, 4))  # the first of several
    h.line("007", 23)  # an odd number before an unknown kind
    h.line("FFF", 23)
    h.line("06000", 23)
    h.line("010000000", 23)  # an odd number, and not the length
    h.line("0000000000000000", 24)  # an unknown kind before the length
    h.line("06", 24)
    h.line("0503", 23)  # the length before the rule
    h.line("050300", 23)
    h.line("0502FFFF00", 23)
    h.line("0503FFFF", 25)  # both the rule and the gap
    h.line("0110001000", 5)  # good lines whose calls are refused
    h.line("0200FFFF", 2)
    h.line("03FFFFFFFF", 2)
    h.line("04FFFFFFFF", 2)


def long_lines(h):
    for length in (63, 64, 65, 66, 127, 128, 255, 256, 4095, 4096, 4097):
        if length > 64:
            for byte in (b"0", b"G", b"\xff"):
                h.line(byte * length, 23)
        else:
            h.line(b"0" * length, 24 if length % 2 == 0 else 23)
        h.line("05000000", "000000")
    h.line(b"0502000A" + b"0" * 5000, 23)
    h.line(b"0" * 70000, 23)
    h.line("05000000", "000000")


def main():
    if len(sys.argv) != 2:
        sys.exit(__doc__)
    reference = pathlib.Path(sys.argv[1]).resolve()
    lines().write("lines", reference)
    Limits().history().write("limits", reference)
    stops().write("stops", reference)
    triangle().write("triangle", reference)
    worked().write("worked", reference)


if __name__ == "__main__":
    main()

#!/usr/bin/env python3
"""Writes peterson.csv: all steps of Peterson's mutual exclusion for two processes, searched breadth first.

A line is a state as two slots. The first is 8 * (place of process 0) + (place of process 1), with the places 0 idle, 1 flag raised, 2 turn given
away, 3 critical. The second is flag of process 0 + 2 * (flag of process 1) + 4 * turn. The first line is the start; each further line is the target of
one step, so a line that was there before is a state seen again.

With --hasty it writes no trace, but the states of a shortest path to one in which both processes are critical, where a process that wants to enter
leaves the turn as it is: places, flags, turn.
"""
from collections import deque
import sys


def steps(state, hasty=False):
    places, flags, turn = state
    for me in (0, 1):
        you = 1 - me
        place = places[me]
        if place == 0:
            yield move(places, me, 1), put(flags, me, 1), turn
        elif place == 1:
            yield move(places, me, 2), flags, turn if hasty else you
        elif place == 2 and (flags[you] == 0 or turn == me):
            yield move(places, me, 3), flags, turn
        elif place == 3:
            yield move(places, me, 0), put(flags, me, 0), turn


def move(places, me, place):
    return put(places, me, place)


def put(pair, at, value):
    return (value, pair[1]) if at == 0 else (pair[0], value)


def line(state):
    places, flags, turn = state
    return "%d,%d\n" % (8 * places[0] + places[1], flags[0] + 2 * flags[1] + 4 * turn)


def main():
    start = ((0, 0), (0, 0), 0)
    seen, queue = {start}, deque([start])
    print(line(start), end="")
    while queue:
        for target in steps(queue.popleft()):
            print(line(target), end="")
            if target not in seen:
                seen.add(target)
                queue.append(target)


def path_to_error():
    start = ((0, 0), (0, 0), 0)
    came, queue = {start: None}, deque([start])
    while queue:
        state = queue.popleft()
        if state[0] == (3, 3):
            path = []
            while state:
                path.append(state)
                state = came[state]
            return path[::-1]
        for target in steps(state, True):
            if target not in came:
                came[target] = state
                queue.append(target)


if sys.argv[1:] == ["--hasty"]:
    for places, flags, turn in path_to_error():
        print("%d, %d, %d, %d, %d" % (*places, *flags, turn))
else:
    main()

"""The states of the dining philosophers of philosophers.h, by a set of tuples: how many there are, and in how
many nobody can make a step."""

COUNT = 8


def steps(doing, taken):
    for i in range(COUNT):
        left, right = i, (i + 1) % COUNT
        new, forks = list(doing), set(taken)
        if doing[i] == "thinks":
            new[i] = "hungry"
        elif doing[i] == "hungry" and left not in taken:
            new[i] = "has left"
            forks.add(left)
        elif doing[i] == "has left" and right not in taken:
            new[i] = "eats"
            forks.add(right)
        elif doing[i] == "eats":
            new[i] = "thinks"
            forks -= {left, right}
        else:
            continue
        yield tuple(new), frozenset(forks)


start = (("thinks",) * COUNT, frozenset())
met, frontier, stuck = {start}, [start], 0
while frontier:
    after = list(steps(*frontier.pop()))
    stuck += not after
    for state in after:
        if state not in met:
            met.add(state)
            frontier.append(state)
print(f"{len(met)} states, {stuck} stuck")

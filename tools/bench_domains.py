#!/usr/bin/env python3
"""Makes the domains of the benchmark, and what the program `timing` must print of them.

python3 tools/bench_domains.py sample     writes crates/timing/data, crates/timing/args and crates/timing/stdout
python3 tools/bench_domains.py FOLDER     writes a folder for each domain of the benchmark, with domain.bin and answers

Run it from the root of the repository. The answers are found by a search of this file's own.
"""
import heapq
import os
import random
import shutil
import sys

from samples import Action, Card, bits, card_bytes

SIZES = [8, 9, 10, 11, 12]  # fluents; all 2^fluents states can be reached
ACTIONS = 100
GOALS = 8


def step(action, state):
    """The state after the action, or none where it cannot run."""
    needs, adds, deletes = action
    return (state & ~deletes) | adds if needs & state == needs else None


def explore(start, actions):
    """All states that can be reached, with the least cost, and then the fewest actions, of a way to each."""
    least = {start: (0, 0)}
    waiting = [(0, 0, start)]
    while waiting:
        cost, steps, state = heapq.heappop(waiting)
        if least[state] < (cost, steps):
            continue
        for effect, price in actions:
            after = step(effect, state)
            if after is not None and (cost + price, steps + 1) < least.get(after, (1 << 40, 0)):
                least[after] = (cost + price, steps + 1)
                heapq.heappush(waiting, (cost + price, steps + 1, after))
    return least


def unclear(least, actions):
    """The states that have cheapest ways of different lengths."""
    onward = {state: [] for state in least}
    found = []
    for state, (cost, steps) in least.items():
        for effect, price in actions:
            after = step(effect, state)
            if after is None or after == state or least[after][0] != cost + price:
                continue
            onward[state].append(after)
            if least[after][1] != steps + 1:
                found.append(after)
    seen = set(found)
    while found:
        for after in onward[found.pop()]:
            if after not in seen:
                seen.add(after)
                found.append(after)
    return seen


class Search:
    """A card's reachable states, searched once for all goals. Without a log no marked action runs."""

    def __init__(self, start, actions):
        actions = [((bits(a.needs), bits(a.adds), bits(a.deletes)), a.cost) for a in actions if not a.marked]
        self.least = explore(bits(start), actions)
        self.unclear = unclear(self.least, actions)

    def cheapest_ends(self, goal):
        wanted = bits(goal)
        ends = [state for state in self.least if wanted & state == wanted]
        cost = min((self.least[state][0] for state in ends), default=None)
        return cost, [state for state in ends if self.least[state][0] == cost]

    def clear(self, goal):
        """Whether all cheapest plans for the goal have one length, so that it does not matter which is found."""
        _, ends = self.cheapest_ends(goal)
        return len({self.least[state][1] for state in ends}) <= 1 and self.unclear.isdisjoint(ends)

    def line(self, number, goal):
        assert self.clear(goal)
        cost, ends = self.cheapest_ends(goal)
        if cost is None:
            return f"goal {number} costs - - plan 0"
        return f"goal {number} costs {cost} {cost} plan {self.least[ends[0]][1]}"


def make_actions(rng, fluents, count):
    """Every fluent above the first can be added where an earlier one holds, and each can be deleted: all sets can be reached.
    The other actions need one or two fluents, and change one to three."""
    actions = [Action({rng.randrange(i)}, {i}, set(), rng.randint(1, 3000)) for i in range(1, fluents)]
    actions += [Action({i}, set(), {i}, rng.randint(1, 3000)) for i in range(fluents)]
    while len(actions) < count:
        needs = set(rng.sample(range(fluents), rng.randint(1, 2)))
        changed = rng.sample(range(fluents), rng.randint(1, 3))
        adds = set(changed[:rng.randint(0, len(changed))])
        cost = 0 if rng.randrange(25) == 0 else rng.randint(0, 3000)
        actions.append(Action(needs, adds, set(changed) - adds, cost))
    rng.shuffle(actions)
    return actions


def make_goals(rng, fluents, count, search):
    goals = []
    while len(goals) < count:
        goal = set(rng.sample(range(fluents), rng.randint(2, fluents // 2 + 1)))
        if goal not in goals and search.clear(goal):
            goals.append(goal)
    return goals


def bench_card(fluents):
    rng = random.Random(fluents)
    actions = make_actions(rng, fluents, ACTIONS)
    search = Search({0}, actions)
    assert len(search.least) == 1 << fluents
    return Card(fluents, {0}, actions, make_goals(rng, fluents, GOALS, search)), search


def sample_card():
    """Five fluents can be had, the sixth only by a marked action, which no log has."""
    rng = random.Random(5)
    actions = make_actions(rng, 5, 15)
    search = Search({0}, actions)
    goals = make_goals(rng, 5, 3, search)
    actions.append(Action({0}, {5}, set(), 7, True))
    return Card(6, {0}, actions, goals + [{5}]), Search({0}, actions)


def lines(card, search):
    return "".join(search.line(number, goal) + "\n" for number, goal in enumerate(card.goals))


def store(folder, card):
    os.makedirs(folder)
    with open(os.path.join(folder, "domain.bin"), "wb") as f:
        f.write(card_bytes(card))


def write(path, text):
    with open(path, "w") as f:
        f.write(text)


def write_sample(root):
    card, search = sample_card()
    shutil.rmtree(os.path.join(root, "data"), ignore_errors=True)
    store(os.path.join(root, "data", "sample"), card)
    write(os.path.join(root, "args"), "sample\n1\n")
    write(os.path.join(root, "stdout"), lines(card, search))


def write_domains(root):
    shutil.rmtree(root, ignore_errors=True)
    for fluents in SIZES:
        card, search = bench_card(fluents)
        folder = os.path.join(root, str(len(search.least)))
        store(folder, card)
        write(os.path.join(folder, "answers"), lines(card, search))


if __name__ == "__main__":
    if sys.argv[1] == "sample":
        write_sample(os.path.join("crates", "timing"))
    else:
        write_domains(sys.argv[1])

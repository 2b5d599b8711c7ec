#!/usr/bin/env python3
"""Makes the sample domains, lists and logs, and what the programs `describe` and `costs` must print of them.

Run from the root of the repository: python3 tools/samples.py
It writes data, args and stdout of crates/describe and of crates/costs.
Nothing here is taken from the programs: files are encoded and described a second time, and lists
are run and judged a second time. Of each damaged file the number, record and byte of its refusal
are written by hand, and so is the number of a refused log.
"""
import heapq
import os
import shutil
from collections import namedtuple

Action = namedtuple("Action", "needs adds deletes cost marked", defaults=(False,))
Card = namedtuple("Card", "fluents start actions goals")
Move = namedtuple("Move", "start end cost marked", defaults=(False,))
FieldMap = namedtuple("FieldMap", "places start moves goals")


# Encoding.

def bits(fluents):
    return sum(1 << fluent for fluent in fluents)


def record(fields, marked=None):
    """fields: (value, bytes, absent value), in the order of their bits."""
    bit_map = sum(1 << i for i, (value, _, absent) in enumerate(fields) if value != absent)
    if marked:
        bit_map |= 1 << len(fields)
    written = [value.to_bytes(size, "little") for value, size, absent in fields if value != absent]
    return bytes([bit_map]) + b"".join(written)


def card_bytes(card):
    out = bytes([0x53, card.fluents, len(card.actions), len(card.goals)]) + bits(card.start).to_bytes(7, "little")
    for a in card.actions:
        out += record([(bits(a.needs), 7, 0), (bits(a.adds), 7, 0), (bits(a.deletes), 7, 0), (a.cost, 2, 1)], a.marked)
    for goal in card.goals:
        out += record([(bits(goal), 7, 0)])
    return out


def map_bytes(field_map):
    out = bytes([0x4D, field_map.places, len(field_map.moves), len(field_map.goals), field_map.start])
    for m in field_map.moves:
        out += record([(m.start, 1, 0), (m.end, 1, 0), (m.cost, 2, 1)], m.marked)
    for goal in field_map.goals:
        out += record([(goal, 1, 0)])
    return out


# Describing.

def in_words(fluents):
    return " ".join(str(f) for f in sorted(fluents)) or "nothing"


def card_lines(card):
    yield f"  set-up card: width {card.fluents}, {card.fluents} fluents, {len(card.actions)} actions, {len(card.goals)} goals"
    yield f"  start: {in_words(card.start)}"
    for i, a in enumerate(card.actions):
        mark = ", marked" if a.marked else ""
        yield f"  action {i}: needs {in_words(a.needs)}; adds {in_words(a.adds)}; deletes {in_words(a.deletes)}; cost {a.cost}{mark}"
    for i, goal in enumerate(card.goals):
        yield f"  goal {i}: {in_words(goal)}"


def map_lines(field_map):
    yield f"  field map: width 6, {field_map.places} places, {len(field_map.moves)} moves, {len(field_map.goals)} goals"
    yield f"  start: place {field_map.start}"
    for i, m in enumerate(field_map.moves):
        mark = ", marked" if m.marked else ""
        yield f"  move {i}: from place {m.start} to place {m.end}; cost {m.cost}{mark}"
    for i, goal in enumerate(field_map.goals):
        yield f"  goal {i}: place {goal}"


# Judging a list of actions.

def run(domain, state, action):
    """The next state, or None where the action cannot run. A card's state is a set, a map's a place."""
    if isinstance(domain, Card):
        if action >= len(domain.actions) or not domain.actions[action].needs <= state:
            return None
        return (state - domain.actions[action].deletes) | domain.actions[action].adds
    if action >= len(domain.moves) or domain.moves[action].start != state:
        return None
    return domain.moves[action].end


def state_number(domain, state):
    return bits(state) if isinstance(domain, Card) else state


def places_of(log, plan):
    """The earliest rising places that hold the entries; None where there are none."""
    places, at = [], 0
    for entry in log:
        if entry not in plan[at:]:
            return None
        places.append(plan.index(entry, at))
        at = places[-1] + 1
    return places


def numbers(row, empty):
    return " ".join(map(str, row)) or empty


def list_lines(domain, plan, log):
    yield f"  list: {numbers(plan, 'empty')}, log: {numbers(log, 'empty')}"
    states = [set(domain.start) if isinstance(domain, Card) else domain.start]
    while len(states) <= len(plan) and (after := run(domain, states[-1], plan[len(states) - 1])) is not None:
        states.append(after)
    ran = len(states) - 1
    yield f"  states: {numbers((state_number(domain, state) for state in states), '')}"
    if ran < len(plan):
        yield f"  cannot run: action {plan[ran]} at place {ran}, in state {state_number(domain, states[-1])}"
        return
    steps = domain.actions if isinstance(domain, Card) else domain.moves
    met = [i for i, goal in enumerate(domain.goals) if meets(domain, states[-1], goal)]
    yield f"  cost {sum(steps[action].cost for action in plan)}"
    yield f"  meets goals: {numbers(met, 'none')}"
    yield f"  admitted: {'yes' if {action for action in plan if steps[action].marked} <= set(log) else 'no'}"
    carried = max(n for n in range(len(log) + 1) if places_of(log[:n], plan) is not None)
    if carried < len(log):
        yield f"  does not carry entry {carried} of the log, action {log[carried]}"
    elif not log:
        yield "  carries the empty log"
    else:
        yield f"  carries the log at places: {numbers(places_of(log, plan), '')}"


# Least costs. Among equally cheap plans the program may choose: it settles states by cost and then by number,
# keeps the first of equal ways, and shows the way to the first of equally cheap states in the order in which they were found.

ROWS = 4096


def meets(domain, state, goal):
    return goal <= state if isinstance(domain, Card) else goal == state


def cheapest_ways(domain):
    """The way to each state in the order in which they were found, as (cost, actions); None where there are more than ROWS."""
    steps = domain.actions if isinstance(domain, Card) else domain.moves
    start = frozenset(domain.start) if isinstance(domain, Card) else domain.start
    ways, settled = {start: (0, [])}, set()
    waiting = [(0, state_number(domain, start), start)]
    while waiting:
        cost, _, state = heapq.heappop(waiting)
        if state in settled:
            continue
        settled.add(state)
        for action, step in enumerate(steps):
            after = run(domain, state, action)
            if after is None:
                continue
            after = frozenset(after) if isinstance(domain, Card) else after
            if after not in ways or cost + step.cost < ways[after][0]:
                if after not in ways and len(ways) == ROWS:
                    return None
                ways[after] = (cost + step.cost, ways[state][1] + [action])
                heapq.heappush(waiting, (cost + step.cost, state_number(domain, after), after))
    return ways


def cost_lines(domain):
    ways = cheapest_ways(domain)
    for i, goal in enumerate(domain.goals):
        if ways is None:
            yield f"  goal {i}: refused 17: are the reachable states no more than the rows?"
            continue
        ends = [way for state, way in ways.items() if meets(domain, state, goal)]
        if ends:
            cost, actions = min(ends, key=lambda way: way[0])
            yield f"  goal {i} costs {cost}: actions {numbers(actions, 'none')}"
        else:
            yield f"  goal {i} has no plan"


LOG_QUESTIONS = {
    11: "is every entry below the count of actions?",
    13: "has the log at most 20 entries?",
}

QUESTIONS = {
    1: "is the first byte the letter of a kind?",
    2: "is the header whole?",
    3: "are the counts within their limits?",
    4: "is the start a state?",
    5: "is the record whole?",
    6: "has the bit map only defined bits?",
    7: "is the field in range, and other than its absent value?",
    8: "does the file end here?",
}

# The sample domains.

CALIBRATION = Card(5, {0}, [
    Action({0}, {2}, {0}, 1),      # open the shutter
    Action(set(), {1}, set(), 1),  # lamp on
    Action({0, 1}, {3}, set(), 2), # flat field
    Action({2}, {4}, set(), 3),    # frame
    Action({1}, set(), {1}, 0),    # lamp off
    Action({2}, {0}, {2}, 1),      # close the shutter
], [{3}, {4}, {3, 4}])

SLEWS = FieldMap(6, 0, [Move(0, 1, 2), Move(1, 2, 2), Move(0, 3, 1), Move(3, 2, 3), Move(3, 4, 1)], [2, 4, 5])

# A night's set-up of a telescope with an imager and a spectrograph. Costs are minutes.
(DOME_SHUT, DOME_OPEN, COVER_ON, COVER_OFF, PARKED, AT_ZENITH, AT_A, AT_B, GUIDING, IMAGER, SPECTROGRAPH,
 IMAGER_COLD, SPECTROGRAPH_COLD, BLUE, RED, WIDE, NARROW, ARC_LAMP, FLAT_LAMP, BIAS, FLAT, ARC,
 IMAGE_A_BLUE, IMAGE_A_RED, IMAGE_B_BLUE, SPECTRUM_A, SPECTRUM_B, STANDARD, CHECKED, ARCHIVED) = range(30)

NIGHT = Card(30, {DOME_SHUT, COVER_ON, PARKED, IMAGER, BLUE, WIDE}, [
    Action({DOME_SHUT}, {DOME_OPEN}, {DOME_SHUT}, 4, True),
    Action({DOME_OPEN}, {DOME_SHUT}, {DOME_OPEN}, 4, True),
    Action({COVER_ON, DOME_OPEN}, {COVER_OFF}, {COVER_ON}, 2),
    Action({COVER_OFF}, {COVER_ON}, {COVER_OFF}, 2),
    Action({PARKED}, {AT_ZENITH}, {PARKED}, 3, True),
    Action({AT_ZENITH}, {PARKED}, {AT_ZENITH}, 3, True),
    Action({AT_ZENITH, COVER_OFF}, {AT_A}, {AT_ZENITH, GUIDING}, 2, True),
    Action({AT_ZENITH, COVER_OFF}, {AT_B}, {AT_ZENITH, GUIDING}, 3, True),
    Action({AT_A}, {AT_B}, {AT_A, GUIDING}, 1, True),
    Action({AT_B}, {AT_A}, {AT_B, GUIDING}, 1, True),
    Action({AT_A}, {AT_ZENITH}, {AT_A, GUIDING}, 2, True),
    Action({AT_B}, {AT_ZENITH}, {AT_B, GUIDING}, 3, True),
    Action({AT_A}, {GUIDING}, set(), 2),
    Action({AT_B}, {GUIDING}, set(), 2),
    Action({SPECTROGRAPH}, {IMAGER}, {SPECTROGRAPH}, 1),
    Action({IMAGER}, {SPECTROGRAPH}, {IMAGER}, 1),
    Action(set(), {IMAGER_COLD}, set(), 40),
    Action(set(), {SPECTROGRAPH_COLD}, set(), 55),
    Action({RED}, {BLUE}, {RED}, 1),
    Action({BLUE}, {RED}, {BLUE}, 1),
    Action({NARROW}, {WIDE}, {NARROW}, 0),
    Action({WIDE}, {NARROW}, {WIDE}, 0),
    Action(set(), {ARC_LAMP}, {FLAT_LAMP}, 1),
    Action({ARC_LAMP}, set(), {ARC_LAMP}, 0),
    Action({COVER_ON}, {FLAT_LAMP}, {ARC_LAMP}, 1),
    Action({FLAT_LAMP}, set(), {FLAT_LAMP}, 0),
    Action({COVER_ON, DOME_SHUT}, {BIAS}, set(), 5),
    Action({FLAT_LAMP, IMAGER}, {FLAT}, set(), 8),
    Action({ARC_LAMP, SPECTROGRAPH, NARROW}, {ARC}, set(), 6),
    Action({AT_A, GUIDING, IMAGER, IMAGER_COLD, BLUE}, {IMAGE_A_BLUE}, set(), 20),
    Action({AT_A, GUIDING, IMAGER, IMAGER_COLD, RED}, {IMAGE_A_RED}, set(), 15),
    Action({AT_B, GUIDING, IMAGER, IMAGER_COLD, BLUE}, {IMAGE_B_BLUE}, set(), 25),
    Action({AT_A, GUIDING, SPECTROGRAPH, SPECTROGRAPH_COLD, NARROW}, {SPECTRUM_A}, set(), 45),
    Action({AT_B, GUIDING, SPECTROGRAPH, SPECTROGRAPH_COLD, NARROW}, {SPECTRUM_B}, set(), 60),
    Action({AT_ZENITH, SPECTROGRAPH, SPECTROGRAPH_COLD, WIDE, COVER_OFF}, {STANDARD}, set(), 10),
    Action({BIAS, FLAT}, {CHECKED}, set(), 3),
    Action({CHECKED, PARKED}, {ARCHIVED}, set(), 12),
], [
    {BIAS, FLAT},
    {IMAGE_A_BLUE},
    {IMAGE_A_BLUE, IMAGE_A_RED},
    {IMAGE_B_BLUE, FLAT},
    {SPECTRUM_A, ARC},
    {SPECTRUM_B, ARC, STANDARD},
    {IMAGE_A_RED, SPECTRUM_A},
    {ARCHIVED, DOME_SHUT},
])

# As large as they may be.
WIDE_CARD = Card(55, {54}, [Action({0, 54}, {53}, {54}, 60000, True), Action(set(), set(), set(), 1)], [set(), set(range(55))])
WIDE_MAP = FieldMap(64, 63, [Move(i % 64, (i + 1) % 64, 500 * i, i % 7 == 0) for i in range(120)], list(range(32, 64)))

# moves that cost nothing, round in a ring and on
RING = FieldMap(5, 0, [Move(0, 1, 0), Move(1, 2, 0), Move(2, 0, 0), Move(2, 3, 0), Move(3, 4, 7)], [0, 3, 4])

# twelve switches: as many states as a table may have rows; and with a lamp that lights when all are on, one state more
SWITCHES = Card(12, set(), [Action(set(), {i}, set(), i % 3) for i in range(12)], [set(range(12)), {11}])
SWITCHES_AND_LAMP = Card(13, set(), SWITCHES.actions + [Action(set(range(12)), {12}, set(), 1)], SWITCHES.goals + [{12}])

# the domains that are described
DESCRIBED = [("calibration", CALIBRATION), ("slews", SLEWS), ("night", NIGHT), ("limits/card", WIDE_CARD), ("limits/map", WIDE_MAP)]

# the damaged files of which the search says why they are refused: number, record and byte differ in each
REFUSED = {"card_action_cut", "cost_60001", "map_goal_past_places", "map_with_more"}

# the domains whose goals are searched for
SEARCHED = DESCRIBED + [("ring", RING), ("limits/states", SWITCHES), ("limits/states_and_one", SWITCHES_AND_LAMP)]

# Damaged files: the name, the bytes, and the refusal's number, record and byte.
K = card_bytes(CALIBRATION)
Q = map_bytes(SLEWS)
assert Q == bytes.fromhex("4D 06 05 03 00 06 01 02 00 07 01 02 02 00 02 03 07 03 02 03 00 03 03 04 01 02 01 04 01 05")
assert len(K) == 138


def put(data, at, *new):
    return data[:at] + bytes(new) + data[at + len(new):]


DAMAGED = [
    ("missing", None, (1, 0, 0)),
    ("empty", b"", (1, 0, 0)),
    ("letter", put(K, 0, 0x54), (1, 0, 0)),
    ("lower_case_letter", put(Q, 0, 0x6D), (1, 0, 0)),
    ("card_letter_alone", K[:1], (2, 0, 1)),
    ("card_header_cut", K[:10], (2, 0, 10)),
    ("map_header_cut", Q[:4], (2, 0, 4)),
    ("map_with_card_letter", put(Q, 0, 0x53), (4, 0, 4)),
    ("no_fluents", put(K, 1, 0), (3, 0, 1)),
    ("fluents_56", put(K, 1, 56), (3, 0, 1)),
    ("no_actions", put(K, 2, 0), (3, 0, 2)),
    ("actions_121", put(K, 2, 121), (3, 0, 2)),
    ("no_goals", put(K, 3, 0), (3, 0, 3)),
    ("goals_33", put(K, 3, 33), (3, 0, 3)),
    ("two_counts", put(K, 2, 0, 0), (3, 0, 2)),
    ("places_65", put(Q, 1, 65), (3, 0, 1)),
    ("moves_121", put(Q, 2, 121), (3, 0, 2)),
    ("start_past_fluents", put(K, 4, 32), (4, 0, 4)),
    ("start_high_byte", put(K, 10, 1), (4, 0, 4)),
    ("start_past_places", put(Q, 4, 6), (4, 0, 4)),
    ("card_without_records", K[:11], (5, 1, 11)),
    ("card_action_cut", K[:32], (5, 1, 32)),
    ("card_goal_cut", K[:137], (5, 9, 137)),
    ("card_goal_missing", K[:130], (5, 9, 130)),
    ("map_without_records", Q[:5], (5, 1, 5)),
    ("map_move_cut", Q[:8], (5, 1, 8)),
    ("map_goal_cut", Q[:28], (5, 8, 28)),
    ("cut_before_judged", K[:11] + bytes([7, 32]), (5, 1, 13)),
    ("action_bit_5", put(K, 11, 0x27), (6, 1, 11)),
    ("goal_bit_1", put(K, 114, 0x03), (6, 7, 114)),
    ("move_bit_4", put(Q, 5, 0x16), (6, 1, 5)),
    ("map_goal_bit_7", put(Q, 24, 0x81), (6, 6, 24)),
    ("bits_before_cut", K[:11] + bytes([0xFF]), (6, 1, 11)),
    ("needs_past_fluents", put(K, 12, 32), (7, 1, 12)),
    ("adds_past_fluents", put(K, 19, 0, 1), (7, 1, 19)),
    ("deletes_past_fluents", put(K, 32, 0x80), (7, 1, 26)),
    ("cost_60001", put(K, 56, 0x61, 0xEA), (7, 3, 56)),
    ("goal_past_fluents", put(K, 115, 33), (7, 7, 115)),
    ("needs_empty_written", put(K, 12, 0), (7, 1, 12)),
    ("cost_one_written", put(K, 56, 1, 0), (7, 3, 56)),
    ("goal_empty_written", put(K, 115, 0), (7, 7, 115)),
    ("two_fields", put(put(K, 19, 0), 26, 0), (7, 1, 19)),
    ("place_past_places", put(Q, 6, 6), (7, 1, 6)),
    ("place_zero_written", put(Q, 6, 0), (7, 1, 6)),
    ("map_cost_one_written", put(Q, 7, 1, 0), (7, 1, 7)),
    ("map_cost_65535", put(Q, 7, 0xFF, 0xFF), (7, 1, 7)),
    ("map_goal_past_places", put(Q, 25, 6), (7, 6, 25)),
    ("card_with_more", K + b"\0", (8, 10, 138)),
    ("map_with_more", Q + Q, (8, 9, 30)),
]


# Lists and logs beside a domain: the name, the domain, the list, the log (None: no such file), and the number of a refused log.
LISTS = [
    ("repeated_entry", CALIBRATION, [1, 4, 1, 2], [1, 1], None),
    ("entry_not_carried", CALIBRATION, [1, 2], [1, 1], None),
    ("order_of_entries", CALIBRATION, [1, 0, 3], [0, 1], None),
    ("cannot_run", CALIBRATION, [0, 2, 3], [0], None),
    ("no_such_action", CALIBRATION, [1, 6], None, None),
    ("empty_list", CALIBRATION, [], None, None),
    ("empty_list_with_log", CALIBRATION, [], [1], None),
    ("log_alone", CALIBRATION, None, [1], None),
    ("two_goals", CALIBRATION, [1, 2, 0, 3], [2, 3], None),
    ("marks_logged", NIGHT, [24, 0, 2, 4, 6], [0, 4, 6], None),
    ("mark_not_logged", NIGHT, [24, 0, 2, 4, 6], [0, 6], None),
    ("map_list", SLEWS, [2, 3], [2], None),
    ("map_cannot_run", SLEWS, [0, 3], [], None),
    ("map_at_limits", WIDE_MAP, [63, 64, 65], [63], None),
    ("log_of_20", CALIBRATION, [1] * 21, [1] * 20, None),
    ("log_of_21", CALIBRATION, [1] * 21, [1] * 21, 13),
    ("entry_past_actions", CALIBRATION, [1], [1, 6], 11),
    ("log_of_21_past_actions", CALIBRATION, [1], [6] + [1] * 20, 13),
    ("no_domain", None, [0], [0], None),
]

# Some of them by hand.
assert list(list_lines(CALIBRATION, [1, 4, 1, 2], [1, 1])) == [
    "  list: 1 4 1 2, log: 1 1",
    "  states: 1 3 1 3 11",
    "  cost 4",
    "  meets goals: 0",
    "  admitted: yes",
    "  carries the log at places: 0 2",
]
assert list(list_lines(CALIBRATION, [1, 2], [1, 1]))[-1] == "  does not carry entry 1 of the log, action 1"
assert list(list_lines(CALIBRATION, [0, 2, 3], [0]))[1:] == ["  states: 1 4", "  cannot run: action 2 at place 1, in state 4"]
assert list(list_lines(SLEWS, [2, 3], [2]))[1:] == ["  states: 0 3 2", "  cost 4", "  meets goals: 0", "  admitted: yes", "  carries the log at places: 0"]
assert list(cost_lines(SLEWS))[1:] == ["  goal 1 costs 2: actions 2 4", "  goal 2 has no plan"]


def domain_bytes(domain):
    return card_bytes(domain) if isinstance(domain, Card) else map_bytes(domain)


def domain_lines(domain):
    yield from card_lines(domain) if isinstance(domain, Card) else map_lines(domain)
    yield f"  written again: {len(domain_bytes(domain))} bytes, the same bytes"


def refusal_line(number, in_record, byte):
    return f"  refused {number} record {in_record} byte {byte}: {QUESTIONS[number]}"


class Program:
    """The folders that a program is run on, and what it must print of each."""

    def __init__(self, name):
        self.root = os.path.join("crates", name)
        self.folders, self.lines = [], []
        shutil.rmtree(os.path.join(self.root, "data"), ignore_errors=True)

    def store(self, folder, name, content):
        place = os.path.join(self.root, "data", folder)
        os.makedirs(place, exist_ok=True)
        with open(os.path.join(place, name), "wb") as f:
            f.write(content)

    def expect(self, folder, *told):
        self.folders.append(folder)
        self.lines.append(folder)
        self.lines.extend(told)

    def finish(self):
        for path, texts in (("args", self.folders), ("stdout", self.lines)):
            with open(os.path.join(self.root, path), "w") as f:
                f.write("\n".join(texts) + "\n")


def describe():
    program = Program("describe")
    for folder, domain in DESCRIBED:
        program.store(folder, "domain.bin", domain_bytes(domain))
        program.expect(folder, *domain_lines(domain))
    for name, content, position in DAMAGED:
        folder = "damaged/" + name
        if content is not None:
            program.store(folder, "domain.bin", content)
        program.expect(folder, refusal_line(*position))
    program.finish()


def costs():
    program = Program("costs")
    for folder, domain in SEARCHED:
        program.store(folder, "domain.bin", domain_bytes(domain))
        program.expect(folder, *cost_lines(domain))
    for name, domain, plan, log, refused in LISTS:
        folder = "lists/" + name
        for file, content in (("domain.bin", domain and domain_bytes(domain)), ("plan.bin", plan), ("log.bin", log)):
            if content is not None:
                program.store(folder, file, bytes(content))
        if domain is None:
            program.expect(folder, refusal_line(1, 0, 0))
        elif refused is not None:
            program.expect(folder, *cost_lines(domain), f"  refused {refused}: {LOG_QUESTIONS[refused]}")
        elif plan is None:
            program.expect(folder, *cost_lines(domain))
        else:
            program.expect(folder, *cost_lines(domain), *list_lines(domain, plan, log or []))
    for name, content, position in DAMAGED:
        if name in REFUSED:
            program.store("damaged/" + name, "domain.bin", content)
            program.expect("damaged/" + name, refusal_line(*position))
    program.finish()


if __name__ == "__main__":
    describe()
    costs()

"""What `fence never` says of questions drawn by lot, beside the plain search of tests/witness/worlds.py."""

import collections
import re

from worlds import Unit, is_denied, is_holder

# How often a question asks for more than one fact, and for the contrary of one.
MORE, CONTRARY = 0.6, 0.35

# A fact: the name and the place of a nexus, and an end of its script or what may be so of it.
Fact = collections.namedtuple("Fact", "name at end sight is_so", defaults=(None, None, True))

SIGHTS = {
    "write": lambda unit, at: not is_denied(unit, at, "write"),
    "read": lambda unit, at: not is_denied(unit, at, "read"),
    "registered": lambda unit, at: unit.keys[at] is not None,
    "holder": is_holder,
}


def word_of(fact):
    if fact.end is not None:
        return f"{fact.name}={fact.end.replace(' ', ':')}"
    return f"{fact.name}:{'' if fact.is_so else 'no-'}{fact.sight}"


def is_so(fact, unit, ends):
    """Whether the fact is so of a unit and of the ends of the hosts, by their places."""
    if fact.end is not None:
        return ends.get(fact.at) == fact.end
    return SIGHTS[fact.sight](unit, fact.at) == fact.is_so


def ends_of(search, world):
    rests = {at: host.stands[number].rest for (at, host), number in zip(search.hosts.items(), world.stands)}
    return {at: rest for at, rest in rests.items() if isinstance(rest, str)}


def sayings(host):
    """The words with which a script may stop, as far as the search has seen it do so, and the lines at which it may be trapped."""
    rests = [stand.rest for stand in host.stands]
    return sorted({rest if isinstance(rest, str) else f"trapped {rest[0].line}" for rest in rests})


def question(lot, search):
    """A question drawn by lot: ends of some hosts, each more likely one that comes, and facts of some nexuses."""
    names = [nexus.name for nexus in search.scenario.nexuses]
    facts = [Fact(host.nexus.name, at, lot.choice(sayings(host))) for at, host in search.hosts.items() if lot.random() < 0.5]
    subjects = [(at, sight) for at in range(len(names)) for sight in SIGHTS]
    lot.shuffle(subjects)
    while subjects and (not facts or (len(facts) < 16 and lot.random() < MORE)):
        at, sight = subjects.pop()
        facts.append(Fact(names[at], at, None, sight, lot.random() >= CONTRARY))
    lot.shuffle(facts)
    return facts


def fewest(search, facts):
    """How many steps the shortest run to such a moment has; none where there is no such moment."""
    found = (steps for world, steps in search.seen.items() if all(is_so(fact, world.unit, ends_of(search, world)) for fact in facts))
    return min(found, default=None)


def told_unit(search, line):
    """The unit that the line of a trace tells, with nothing pending."""
    held, *keys = line.split()[2:]
    kind, _, name = held.partition(":")
    told = dict(it.split("=") for it in keys)
    held = None if held == "none" else (int(kind), search.scenario.place(name) if name else None)
    keys = tuple(None if told[nexus.name] == "-" else int(told[nexus.name], 16) for nexus in search.scenario.nexuses)
    return Unit(keys, held, ())


def told_ends(search, lines):
    """By their places the hosts that are over, with their ends."""
    words = (line.split() for line in lines if line.startswith("host "))
    ends = {search.scenario.place(it[1]): " ".join(it[2:-2]).removeprefix("stopped ") for it in words}
    return {at: end for at, end in ends.items() if not end.startswith("ready ")}


def why_wrong(search, facts, said, steps_of):
    """Why what the program says to these facts is wrong, if it is."""
    least = fewest(search, facts)
    lines = said.stdout.splitlines()
    if least is None:
        # (where paths are shared the program's worlds are others, since what may be pending is one world there)
        worlds = lines[0].split()[-1] if lines and any(search.shared) else len(search.seen)
        unmet = [f"unmet {word_of(fact)}" for fact in facts if fewest(search, [fact]) is None]
        is_right = (lines, said.returncode) == ([f"never {worlds}", *unmet], 0)
        return None if is_right else f"it has to say never {worlds} {unmet}"
    head = ["fence-witness 1", f"at {' '.join(map(word_of, facts))} after {least}"]
    if (lines[:2], said.returncode) != (head, 1):
        return f"it has to say {head[1]}"
    if steps_of(search, lines[2:]) != least:
        return f"its run has {steps_of(search, lines[2:])} steps"
    unit = told_unit(search, next(line for line in lines if re.match("unit ", line)))
    others = [word_of(fact) for fact in facts if not is_so(fact, unit, told_ends(search, lines))]
    return f"at the end of its run it is not so that {others}" if others else None

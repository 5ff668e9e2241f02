"""What the cases of `vectors` have to reach, said from papers 01 and 02 alone, and what a case reaches by the reference.

What is reached is a sentence: what a site sheet is told and where, how a steps sheet ends, what a step is answered, which door is told
with reason 3, or which event there is at which door and of whom. `wanted` has all such that the papers allow, so a case that reaches
anything else is a fault too.
"""
from panel import (CLOSED, DENIED, DIMMED, ELSEWHERE, EXPIRED, FREE, GRANTED, GREEN, GREEN_TICKS, LONGEST_SHEET, READ, RED, RED_TICKS,
                   STEPS, WALKED, Panel, Refused, read_site, rows, step_of)

# A sheet may be as long as the first, and not as long as the second.
LIMITS = (LONGEST_SHEET, LONGEST_SHEET + 1)

# How many ticks a light burns for.
SPANS = {GREEN: GREEN_TICKS, RED: RED_TICKS}

# The first place that a number can be told with: the header, the first or the second data row, location 1, person 0.
FIRST_PLACES = {2: 0, 3: 1, 4: 2, 6: 1, 7: 1, 8: 1, 9: 0, 10: 0}

# 01, "Steps", mended by C-13: for each step the phases that allow it, each with those that it leads to. A `tick` alters nothing in any
# other.
LEADS = {"card": {FREE: [READ]}, "decide": {READ: [GRANTED, DENIED]}, "green": {GRANTED: [GREEN]},
         "red": {DENIED: [RED]}, "walk": {GREEN: [WALKED]}, "tick": {GREEN: [GREEN, EXPIRED], RED: [RED, DIMMED]},
         "passed": {WALKED: [CLOSED]}, "lapsed": {EXPIRED: [CLOSED]}, "dark": {DIMMED: [CLOSED]}, "ack": {CLOSED: [FREE]}}


# ---- The sentences

def sized(kind, length):
    return f"a {kind} sheet of {length} bytes"


def site_told(number, place):
    later = number in FIRST_PLACES and place != FIRST_PLACES[number]
    return f"a site sheet told {number} at {'a later' if later else 'the first'} place"


def nine_told(location):
    return f"a site sheet told 9 at {'a later' if location > 1 else 'the first'} location"


def steps_told(what):
    return f"a steps sheet {what}"


def in_phase(phase):
    return f"in phase {phase}"


def answered(name, where, answer, after, reason, held=0):
    door = "the held door" if reason == ELSEWHERE else held
    return f"`{name}` {where} answered {answer},{after},{reason},{door}"


def denied_for(phase):
    return f"a denial by reason 3 for a grant in phase {phase}"


def denied_with(held, door):
    number = f"of {len(str(held))} digits" if held else "0"
    place = "in front of" if held < door else "behind" if held > door else "that is"
    return f"a denial by reason 3 with a door {number} {place} the card's own"


def denied_beside(other, held):
    return f"a denial by reason 3 while another person has a door {'in front of' if other < held else 'behind'} the held one"


DENIED_LATER = "a denial by reason 3 of a person whose first grant was at another door"


def put_out(phase):
    return f"a light in phase {phase} that was ordered again, and went out all the same"


def happened(word, what, number):
    return f"a {word} of a {what} of {len(str(number))} digits"


# ---- What the papers allow

def wanted_of_sites():
    yield from (site_told(number, FIRST_PLACES.get(number, 0)) for number in range(11))
    yield from (site_told(number, place + 1) for number, place in FIRST_PLACES.items())
    yield from (nine_told(location) for location in (1, 2))
    yield from (sized("site", length) for length in LIMITS)


def wanted_of_steps():
    yield from (steps_told(what) for what in ("over the limit", "of a wrong header", "with a row of bad form", "run to its end"))
    yield from (sized("steps", length) for length in LIMITS)
    yield from (denied_for(phase) for phase in (GRANTED, GREEN, WALKED, EXPIRED))
    yield from (denied_with(held, door) for held, door in ((0, 1), (1, 2), (2, 1), (10, 11), (11, 10)))
    yield from (denied_beside(other, 1) for other in (0, 2))
    yield DENIED_LATER
    yield from (put_out(phase) for phase in (GREEN, RED))
    words = ("GRANT", "DENY", "PASS", "LAPSE")
    yield from (happened(word, what, number) for word in words for what in ("door", "person") for number in (9, 10))
    yield from (answered(name, "at no door", 11, 0, 0) for name in STEPS)
    for phase in range(10):
        yield answered("card", in_phase(phase), 11, 0, 0)
        for name in STEPS:
            if phase not in LEADS[name]:
                yield answered(name, in_phase(phase), 0 if name == "tick" else 12, phase, 0)
            for after in LEADS[name].get(phase, []):
                reasons = (1, 2, 3) if after == DENIED else (0,)
                yield from (answered(name, in_phase(phase), 0, after, reason) for reason in reasons)


def wanted():
    return set(wanted_of_sites()) | set(wanted_of_steps())


# ---- What a case reaches

def reached_by_denial(panel, door, person, held):
    """What a denial by reason 3 reaches, which is told with the door `held`."""
    yield denied_for(panel.phase[held])
    yield denied_with(held, door)
    yield from (denied_beside(panel.granted_to(other), held) for other in range(panel.site.people)
                if other != person and panel.granted_to(other) is not None)
    if held != next(at for word, at, whose, *_ in panel.events if (word, whose) == ("GRANT", person)):
        yield DENIED_LATER


def reached_by_step(panel, again, name, door, person):
    """What a step reaches; `again` has the doors whose light was ordered again when it had lost a tick at least."""
    if door >= len(panel.phase):
        yield answered(name, "at no door", *panel.step(name, door, person))
        return
    before, left, holder, events = panel.phase[door], panel.countdown[door], panel.holds[door], len(panel.events)
    answer, after, reason, held = panel.step(name, door, person)
    yield answered(name, in_phase(before), answer, after, reason, held)
    if reason == ELSEWHERE:
        yield from reached_by_denial(panel, door, holder, held)
    if (name, before) in (("green", GREEN), ("red", RED)) and left < SPANS[before]:
        again.add(door)
    elif before == FREE:
        again.discard(door)
    if (before, after) in ((GREEN, EXPIRED), (RED, DIMMED)) and door in again:
        yield put_out(before)
    for word, at, whose, *_ in panel.events[events:]:
        yield happened(word, "door", at)
        yield happened(word, "person", whose)


def reached_by_steps(site, sheet):
    if len(sheet) in LIMITS:
        yield sized("steps", len(sheet))
    if len(sheet) > LONGEST_SHEET:
        yield steps_told("over the limit")
        return
    cut, panel, again = list(rows(sheet)), Panel(site), set()
    if cut[:1] != [[b"step", b"door", b"person"]]:
        yield steps_told("of a wrong header")
        return
    for step in map(step_of, cut[1:]):
        if step is None:
            yield steps_told("with a row of bad form")
            return
        yield from reached_by_step(panel, again, *step)
    yield steps_told("run to its end")


def reached(site_sheet, steps_sheet):
    """What two sheets reach."""
    if len(site_sheet) in LIMITS:
        yield sized("site", len(site_sheet))
    try:
        site = read_site(site_sheet)
    except Refused as refused:
        yield site_told(refused.number, refused.place)
        if refused.number == 9:
            yield nine_told(refused.second)
        return
    yield site_told(0, 0)
    yield from reached_by_steps(site, steps_sheet)

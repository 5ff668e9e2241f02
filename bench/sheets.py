"""The sheets of the benchmark: a full site, and lively steps sheets of the greatest length."""
LONGEST_SHEET = 49152
LOCATIONS = 32
EXITS = {l: (l - 1) // 2 for l in range(1, LOCATIONS)}
DOORS = [pair for l, m in EXITS.items() for pair in ((m, l), (l, m))] + [(0, 1), (1, 0)]


def sheet(header, rows):
    return "".join(row + "\r\n" for row in [header] + rows).encode()


def site_sheet(people):
    """A site of 32 locations and 64 doors; everybody may be everywhere."""
    rows = [f"site,{people},{LOCATIONS}"] + [f"door,{o},{t}" for o, t in DOORS] + [f"exit,{l},{m}" for l, m in EXITS.items()]
    return sheet("kind,a,b", rows + [f"right,{p},{l}" for p in range(people) for l in EXITS])


def visit(door, person):
    """A passage, with some ticks while the light is green."""
    steps = ["decide", "green", "tick", "tick", "tick", "walk", "passed", "ack"]
    return [f"card,{door},{person}"] + [f"{step},{door}," for step in steps]


def denial(door, person):
    steps = ["decide", "red"] + ["tick"] * 20 + ["dark", "ack"]
    return [f"card,{door},{person}"] + [f"{step},{door}," for step in steps]


def crossed(parts):
    """Several lists of rows, a row of each in turn."""
    return [part[i] for i in range(max(map(len, parts))) for part in parts if i < len(part)]


def turn_rows(turn, place, together):
    """What some people do in a turn: each goes through some door of the place where they are, no two through the same; in
    every fourth turn somebody stands at the wrong door."""
    parts, taken = [], set()
    for i in range(together):
        person = (turn * together + i) % len(place)
        fit = [d for d, (origin, _) in enumerate(DOORS) if origin == place[person] and d not in taken]
        if fit:
            door = fit[turn % len(fit)]
            taken.add(door)
            parts.append(visit(door, person))
            place[person] = DOORS[door][1]
    if turn % 4 == 3:
        person = turn % len(place)
        wrong = [d for d, (origin, _) in enumerate(DOORS) if origin != place[person] and d not in taken]
        parts.append(denial(wrong[0], person))
    return crossed(parts) if together > 1 else sum(parts, [])


# Rows of 8 to 11 bytes with their CRLF, to fill a sheet up.
FILLERS = {8: "ack,9,", 9: "tick,9,", 10: "tick,99,", 11: "tick,999,"}


def fillers(rest):
    """Rows of so many bytes together; None where there are no such rows."""
    if rest in FILLERS:
        return [FILLERS[rest]]
    more = fillers(rest - 8) if rest > 11 else None
    return more and [FILLERS[8]] + more


def steps_sheet(people, together):
    """A lively steps sheet of 49,152 bytes."""
    header, rows, place, turn, rest = "step,door,person", [], [0] * people, 0, LONGEST_SHEET - len("step,door,person\r\n")
    while rest >= 0:
        for row in turn_rows(turn, place, together):
            rows.append(row)
            rest -= len(row) + 2
        turn += 1
    while rest < 0 or not fillers(rest):
        rest += len(rows.pop()) + 2
    return sheet(header, rows + fillers(rest))

"""The panel once more, in plain Python and from papers 01 and 02 alone: what the tests expect is made here.

It imports nothing of the project and shares no text with it. `read_site` and `verdict` are the section "Site sheet" with
"Numbers given back", `Panel` the sections "The record" and "Steps", `panel_text` and `where_text` the section "Program and one
whole run". `events_of` has the grants, denials, passages and lapses of a run, for which C-11 of 02 wants lines. `held` is what C-12
of 02 adds to an answer: with reason 3 the door that is granted to the person, else 0. By C-13 of 02, which mends "Steps", an order for
a light that burns is refused.
"""

LONGEST_SHEET = 49152
MOST_PEOPLE, MOST_LOCATIONS, MOST_DOORS = 64, 32, 64
GREEN_TICKS, RED_TICKS = 300, 20
ELSEWHERE = 3     # the reason of a denial for a grant elsewhere: the only one that is told with a door

FREE, READ, GRANTED, GREEN, WALKED, EXPIRED, DENIED, RED, DIMMED, CLOSED = range(10)
STEPS = ["card", "decide", "green", "red", "walk", "tick", "passed", "lapsed", "dark", "ack"]


class Refused(Exception):
    """A number of the table "Numbers given back" and its places."""

    def __init__(self, number, place=0, second=0):
        super().__init__(number, place, second)
        self.number, self.place, self.second = number, place, second


def rows(sheet):
    """The rows of a sheet by RFC 4180, one after the other, each a list of contents; None for a row that can't be cut."""
    at = 0
    while at < len(sheet):
        fields = []
        while True:
            if sheet[at:at + 1] == b'"':
                content, at = b"", at + 1
                while True:
                    close = sheet.find(b'"', at)
                    if close < 0:
                        yield None
                        return
                    content, at = content + sheet[at:close], close + 1
                    if sheet[at:at + 1] != b'"':
                        break
                    content, at = content + b'"', at + 1
            else:
                begin = at
                while at < len(sheet) and sheet[at:at + 1] not in (b'"', b",", b"\r", b"\n"):
                    at += 1
                content = sheet[begin:at]
            fields.append(content)
            if sheet[at:at + 1] != b",":
                break
            at += 1
        if at < len(sheet) and sheet[at:at + 2] != b"\r\n":
            yield None
            return
        yield fields
        at += 2


def number(field):
    """The number that a field says: 1 to 3 digits with no needless leading zero; None if it says none."""
    if not 1 <= len(field) <= 3 or any(byte not in b"0123456789" for byte in field):
        return None
    return int(field) if field == b"0" or field[:1] != b"0" else None


def counts_fit(people, locations):
    return 1 <= people <= MOST_PEOPLE and 2 <= locations <= MOST_LOCATIONS


class Site:
    """What the rows of a site sheet say: a pair for each door, an exit for a location, pairs of a person and a location."""

    def __init__(self, people, locations):
        self.people, self.locations = people, locations
        self.doors, self.exits, self.rights = [], {}, set()

    def may_be(self, person, location):
        return location == 0 or (person, location) in self.rights

    def way_out(self, location):
        """The way out of a location; None where following the exits never comes to 0."""
        way = []
        while location != 0:
            location = self.exits[location]
            way.append(location)
            if len(way) > self.locations:
                return None
        return way

    def take(self, row, kind, a, b):
        """A data row behind the first goes in, or is refused by 3 or 4 at its row."""
        inner = range(1, self.locations)
        whole = range(self.locations)
        fits = {
            b"site": counts_fit(a, b),
            b"door": a in whole and b in whole and a != b and len(self.doors) < MOST_DOORS,
            b"exit": a in inner and b in whole,
            b"right": a < self.people and b in inner,
        }[kind]
        if not fits:
            raise Refused(3, row)
        if kind == b"site" or kind == b"exit" and a in self.exits or kind == b"right" and (a, b) in self.rights:
            raise Refused(4, row)
        if kind == b"door":
            self.doors.append((a, b))
        elif kind == b"exit":
            self.exits[a] = b
        else:
            self.rights.add((a, b))

    def whole_sheet_rules(self):
        """Rules 6 to 10, each finished before the next."""
        inner = range(1, self.locations)
        for location in inner:
            if location not in self.exits:
                raise Refused(6, location)
        for location in inner:
            if self.way_out(location) is None:
                raise Refused(7, location)
        for location in inner:
            if (location, self.exits[location]) not in self.doors:
                raise Refused(8, location)
        for person in range(self.people):
            for location in inner:
                if self.may_be(person, location) and not self.may_be(person, self.exits[location]):
                    raise Refused(9, person, location)
        for person in range(self.people):
            if not any(origin == 0 and self.may_be(person, to) for origin, to in self.doors):
                raise Refused(10, person)


def read_site(sheet):
    """The site that a sheet describes, or Refused."""
    if len(sheet) > LONGEST_SHEET:
        raise Refused(1)
    site, row = None, -1
    for row, fields in enumerate(rows(sheet)):
        if fields is None or len(fields) != 3:
            raise Refused(2, row)
        if row == 0:
            if fields != [b"kind", b"a", b"b"]:
                raise Refused(2, 0)
            continue
        kind, a, b = fields[0], number(fields[1]), number(fields[2])
        if kind not in (b"site", b"door", b"exit", b"right") or a is None or b is None:
            raise Refused(2, row)
        if site is not None:
            site.take(row, kind, a, b)
        elif kind != b"site":
            raise Refused(5, 1)
        elif not counts_fit(a, b):
            raise Refused(3, row)
        else:
            site = Site(a, b)
    if row < 0:
        raise Refused(2, 0)
    if site is None:
        raise Refused(5, 1)
    site.whole_sheet_rules()
    return site


def verdict(sheet):
    """The number that a site sheet is told and its two places; "unused place numbers are 0"."""
    try:
        read_site(sheet)
        return 0, 0, 0
    except Refused as refused:
        return refused.number, refused.place, refused.second


class Panel:
    """The record of an accepted site, fresh at first, its steps and questions, and the events of the steps that were done: for
    each the word that 02 has for it, the door, the person whose card was taken there, and the reason of a denial, else 0, with the
    door that it is told with."""

    def __init__(self, site):
        self.site = site
        self.place = [0] * site.people
        self.phase = [FREE] * len(site.doors)
        self.holds = [0] * len(site.doors)
        self.countdown = [0] * len(site.doors)
        self.events = []

    def put(self, door, phase, person=0, countdown=0):
        self.phase[door], self.holds[door], self.countdown[door] = phase, person, countdown

    def granted_to(self, person):
        """The door that is granted to a person, or None."""
        for door in range(len(self.site.doors)):
            if GRANTED <= self.phase[door] <= EXPIRED and self.holds[door] == person:
                return door
        return None

    def judged(self, door, person):
        """The first reason to deny that applies, 0 for none; and the door that it is told with."""
        origin, destination = self.site.doors[door]
        if self.place[person] != origin:
            return 1, 0
        if not self.site.may_be(person, destination):
            return 2, 0
        granted = self.granted_to(person)
        return (0, 0) if granted is None else (ELSEWHERE, granted)

    def step(self, name, door, person=0):
        """The number, the door's phase afterwards, the reason and the door that it is told with."""
        if door >= len(self.site.doors) or name == "card" and person >= self.site.people:
            return 11, 0, 0, 0
        phase, holder, left = self.phase[door], self.holds[door], self.countdown[door]
        reason = held = 0
        if name == "tick":
            if phase in (GREEN, RED):
                over = EXPIRED if phase == GREEN else DIMMED
                self.put(door, phase if left > 1 else over, holder, left - 1)
        elif name == "card" and phase == FREE:
            self.put(door, READ, person)
        elif name == "decide" and phase == READ:
            reason, held = self.judged(door, holder)
            self.put(door, DENIED if reason else GRANTED, 0 if reason else holder)
            self.events.append(("DENY" if reason else "GRANT", door, holder, reason, held))
        elif name == "green" and phase == GRANTED:
            self.put(door, GREEN, holder, GREEN_TICKS)
        elif name == "red" and phase == DENIED:
            self.put(door, RED, 0, RED_TICKS)
        elif name == "walk" and phase == GREEN:
            self.put(door, WALKED, holder)
        elif name == "passed" and phase == WALKED:
            self.place[holder] = self.site.doors[door][1]
            self.put(door, CLOSED)
            self.events.append(("PASS", door, holder, 0, 0))
        elif name == "lapsed" and phase == EXPIRED:
            self.put(door, CLOSED)
            self.events.append(("LAPSE", door, holder, 0, 0))
        elif name == "dark" and phase == DIMMED:
            self.put(door, CLOSED)
        elif name == "ack" and phase == CLOSED:
            self.put(door, FREE)
        else:
            return 12, phase, 0, 0
        return 0, self.phase[door], reason, held


def step_of(fields):
    """The step that a data row says, or None for a row of bad form."""
    if fields is None or len(fields) != 3:
        return None
    name, door = fields[0].decode("latin-1"), number(fields[1])
    person = number(fields[2]) if name == "card" else 0 if fields[2] == b"" else None
    return None if name not in STEPS or door is None or person is None else (name, door, person)


def serve(site, steps):
    """The rows that `panel` prints behind its header for an accepted site, and the record after the run."""
    panel = Panel(site)
    if len(steps) > LONGEST_SHEET:
        return [(0, 1, 0, 0, 0)], panel
    printed, row = [], -1
    for row, fields in enumerate(rows(steps)):
        if row == 0:
            if fields != [b"step", b"door", b"person"]:
                return [(0, 2, 0, 0, 0)], panel
            continue
        step = step_of(fields)
        if step is None:
            return printed + [(row, 2, 0, 0, 0)], panel
        printed.append((row, *panel.step(*step)))
    return (printed if row >= 0 else [(0, 2, 0, 0, 0)]), panel


def events_of(site_sheet, steps_sheet):
    """The events of a run, in the order of its rows; none where a sheet is refused."""
    try:
        return serve(read_site(site_sheet), steps_sheet)[1].events
    except Refused:
        return []


def text(header, lines):
    return "".join(line + "\r\n" for line in [header] + [",".join(map(str, line)) for line in lines]).encode()


def panel_text(site_sheet, steps_sheet):
    """What `panel` prints for the two sheets."""
    header = "row,answer,phase,reason,held"
    try:
        return text(header, serve(read_site(site_sheet), steps_sheet)[0])
    except Refused as refused:
        return text(header, [(0, refused.number, 0, 0, 0)])


def where_text(site_sheet, steps_sheet):
    """What `where` prints for the two sheets."""
    header = "person,location"
    try:
        return text(header, enumerate(serve(read_site(site_sheet), steps_sheet)[1].place))
    except Refused:
        return text(header, [])

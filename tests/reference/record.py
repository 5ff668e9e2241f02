"""The record as it lies in its fields, in plain Python and from papers 01 and 02 alone: the section "The record" with the test of
soundness, and the steps and questions of any record, sound or not. For a sound one they are those of `panel.py`.
"""
from panel import (EXPIRED, FREE, GRANTED, GREEN, GREEN_TICKS, MOST_DOORS, MOST_LOCATIONS, MOST_PEOPLE, READ, RED, RED_TICKS, Panel,
                   Refused, Site, counts_fit)

DONE, NO_SUCH, TOO_SHORT, UNSOUND = 0, 11, 13, 14
HELD = range(READ, EXPIRED + 1)
GRANTS = range(GRANTED, EXPIRED + 1)


class Record:
    """The counts, the tables, each person's location, and each door's phase, person and countdown; blank at first."""

    def __init__(self):
        self.people = self.locations = self.doors = 0
        self.origin, self.destination = [0] * MOST_DOORS, [0] * MOST_DOORS
        self.exit, self.place = [0] * MOST_LOCATIONS, [0] * MOST_PEOPLE
        self.right = [[False] * MOST_LOCATIONS for _ in range(MOST_PEOPLE)]
        self.phase, self.person, self.countdown = [FREE] * MOST_DOORS, [0] * MOST_DOORS, [0] * MOST_DOORS

    @staticmethod
    def fresh(site):
        """The fresh record of an accepted sheet."""
        record = Record()
        record.people, record.locations, record.doors = site.people, site.locations, len(site.doors)
        for door, (origin, destination) in enumerate(site.doors):
            record.origin[door], record.destination[door] = origin, destination
        for location, to in site.exits.items():
            record.exit[location] = to
        for person, location in site.rights:
            record.right[person][location] = True
        return record

    # ---- Soundness

    def places_are_0(self):
        """Places beyond the counts are 0, and so are location 0's own exit and rights."""
        lists = [(self.origin, self.doors), (self.destination, self.doors), (self.phase, self.doors), (self.person, self.doors),
                 (self.countdown, self.doors), (self.exit, self.locations), (self.place, self.people)]
        rights = [right for person, row in enumerate(self.right) for location, right in enumerate(row)
                  if person >= self.people or location >= self.locations or location == 0]
        return not any(any(entries[count:]) for entries, count in lists) and not any(rights) and self.exit[0] == 0

    def site(self):
        """The site that the tables describe; Refused where they break 3 or 6 to 10."""
        if not counts_fit(self.people, self.locations):
            raise Refused(3)
        site = Site(self.people, self.locations)
        for door in range(self.doors):
            if door >= MOST_DOORS:
                raise Refused(3)
            site.take(0, b"door", self.origin[door], self.destination[door])
        for location in range(1, self.locations):
            site.take(0, b"exit", location, self.exit[location])
        for person in range(self.people):
            for location in range(1, self.locations):
                if self.right[person][location]:
                    site.take(0, b"right", person, location)
        site.whole_sheet_rules()
        return site

    def door_fits(self, site, door):
        phase, person, left = self.phase[door], self.person[door], self.countdown[door]
        spans = {GREEN: range(1, GREEN_TICKS + 1), RED: range(1, RED_TICKS + 1)}
        if phase > 9 or left not in spans.get(phase, range(1)):
            return False
        if phase not in HELD:
            return person == 0
        if person >= self.people:
            return False
        return phase not in GRANTS or self.place[person] == self.origin[door] and site.may_be(person, self.destination[door])

    def grants_are_sole(self):
        """No person has two grants."""
        granted = [person for person, phase in zip(self.person[:self.doors], self.phase) if phase in GRANTS]
        return len(set(granted)) == len(granted)

    def is_sound(self):
        try:
            site = self.site()
        except Refused:
            return False
        return (self.places_are_0() and all(site.may_be(person, self.place[person]) for person in range(self.people))
                and all(self.door_fits(site, door) for door in range(self.doors)) and self.grants_are_sole())

    # ---- Steps and questions: 14, then 11, then 12 or 13

    def panel(self):
        """The same as a panel of its site; of a sound record."""
        panel = Panel(self.site())
        panel.place = self.place[:self.people]
        panel.phase, panel.holds, panel.countdown = self.phase[:self.doors], self.person[:self.doors], self.countdown[:self.doors]
        return panel

    def step(self, name, door, person):
        """The number, the phase, the reason and its door; the record is the next one afterwards."""
        if not self.is_sound():
            return UNSOUND, 0, 0, 0
        panel = self.panel()
        told = panel.step(name, door, person)
        self.place[:self.people] = panel.place
        self.phase[:self.doors], self.person[:self.doors], self.countdown[:self.doors] = panel.phase, panel.holds, panel.countdown
        return told

    def where(self, person):
        """The number and the location."""
        if not self.is_sound():
            return UNSOUND, 0
        return (DONE, self.place[person]) if person < self.people else (NO_SUCH, 0)

    def granted(self, person):
        """The number and the door, None for none."""
        if not self.is_sound():
            return UNSOUND, None
        return (DONE, self.panel().granted_to(person)) if person < self.people else (NO_SUCH, None)

    def way(self, location, room):
        """The number and the way out, which is empty for a refusal."""
        if not self.is_sound():
            return UNSOUND, []
        if location >= self.locations:
            return NO_SUCH, []
        way = self.site().way_out(location)
        return (DONE, way) if len(way) <= room else (TOO_SHORT, [])

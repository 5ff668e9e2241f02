"""Holds the reference to what paper 01 prints: its whole run, `where`, and the twelve cases, copied from the paper by hand, with the
column that C-12 of 02 adds. And to what C-11 and C-12 say of syslog lines: the example, and what they want of reading.

Run it from anywhere.
"""
import sys

from panel import DIMMED, EXPIRED, GREEN, RED, Panel, Refused, panel_text, read_site, verdict, where_text
from syslog_lines import LONGEST_STREAM, events_text, frame, line, read_events_text, read_frame, read_line, write

SITE = ["site,2,3", "door,0,1", "door,1,2", "door,2,1", "door,1,0", "exit,1,0", "exit,2,1", "right,0,1", "right,0,2", "right,1,1"]
STEPS = ["card,0,0", "decide,0,", "green,0,", "walk,0,", "card,1,0", "decide,1,", "passed,0,", "red,1,", "decide,0,", "card,9,0"]
PRINTED = ["row,answer,phase,reason,held", "1,0,1,0,0", "2,0,2,0,0", "3,0,3,0,0", "4,0,4,0,0", "5,0,1,0,0", "6,0,6,1,0", "7,0,9,0,0",
           "8,0,7,0,0", "9,12,9,0,0", "10,11,0,0,0"]

# 02's example, its octet count, and the denials that go by the same words.
EXAMPLE, EXAMPLE_LINE = ("GRANT", 3, 1, 0, 0), b"<86>1 - - - - GRANT - door=3 person=1"
DENIAL, DENIAL_LINE = ("DENY", 3, 1, 2, 0), b"<85>1 - - - - DENY - door=3 person=1 reason=2"
HELD, HELD_LINE = ("DENY", 3, 1, 3, 2), b"<85>1 - - - - DENY - door=3 person=1 reason=3 held=2"
# What is no line by 02's words: another number, facility, severity, word, version or field, a needless zero, something more or less; and
# of a held door: none with reason 3, one with anything else, over 63, not at the end, twice.
NO_LINES = [b"<86>1 - - - - GRANT - door=64 person=1", b"<86>1 - - - - GRANT - door=3 person=64",
            b"<86>1 - - - - GRANT - door=3 person=1 reason=1", b"<85>1 - - - - DENY - door=3 person=1",
            b"<85>1 - - - - DENY - door=3 person=1 reason=0", b"<85>1 - - - - DENY - door=3 person=1 reason=4",
            b"<85>1 - - - - GRANT - door=3 person=1", b"<86>1 - - - - DENY - door=3 person=1 reason=2",
            b"<14>1 - - - - GRANT - door=3 person=1", b"<086>1 - - - - GRANT - door=3 person=1",
            b"<86>1 - - - - GRANT - door=03 person=1", b"<86>1 - - - - GRANT - door=3 person=01",
            b"<86>1 - - - - grant - door=3 person=1", b"<86>1 - - - - OPEN - door=3 person=1",
            b"<86>2 - - - - GRANT - door=3 person=1", b"<86>1 2003-10-11T22:14:15Z - - - GRANT - door=3 person=1",
            b"<86>1 - panel - - GRANT - door=3 person=1", b"<86>1 - - panel - GRANT - door=3 person=1",
            b"<86>1 - - - 1 GRANT - door=3 person=1", b"<86>1 - - - - GRANT [a] door=3 person=1",
            b"<86>1 - - - - GRANT - person=1 door=3", b"<86>1 - - - - GRANT - door=3  person=1",
            b"<86>1 - - - - GRANT - door=3 person=1\n", b"<86>1 - - - - GRANT - door=18446744073709551619 person=1",
            b"<85>1 - - - - DENY - door=3 person=1 reason=3", b"<85>1 - - - - DENY - door=3 person=1 reason=3 held=",
            b"<85>1 - - - - DENY - door=3 person=1 reason=3 held=64", b"<85>1 - - - - DENY - door=3 person=1 reason=3 held=00",
            b"<85>1 - - - - DENY - door=3 person=1 reason=3 held=01", b"<85>1 - - - - DENY - door=3 person=1 held=2 reason=3",
            b"<85>1 - - - - DENY - door=3 person=1 reason=3 held=2 held=2", b"<85>1 - - - - DENY - door=3 person=1 reason=3 held=2 ",
            b"<85>1 - - - - DENY - door=3 person=1 held=2", b"<85>1 - - - - DENY - door=3 person=1 reason=3 Held=2",
            b"<85>1 - - - - DENY - door=3 person=1 reason=2 held=2", b"<85>1 - - - - DENY - door=3 person=1 reason=1 held=0",
            b"<85>1 - - - - DENY - door=3 person=1 reason=0 held=2", b"<85>1 - - - - DENY - door=3 person=1 reason=4 held=2",
            b"<86>1 - - - - GRANT - door=3 person=1 held=2", b"<86>1 - - - - PASS - door=3 person=1 held=0",
            b"<86>1 - - - - LAPSE - door=3 person=1 held=3", b"<86>1 - - - - GRANT - door=3 person=1 reason=3 held=2"]
NO_FRAMES = [b"36 " + EXAMPLE_LINE, b"38 " + EXAMPLE_LINE, b"40 " + EXAMPLE_LINE, b"037 " + EXAMPLE_LINE, b"37" + EXAMPLE_LINE,
             b"37  " + EXAMPLE_LINE, b"18446744073709551653 " + EXAMPLE_LINE, b" " + EXAMPLE_LINE, EXAMPLE_LINE, b"0 ", b"37 ",
             b"37"]
# The lines of 01's whole run, counted by hand.
STREAM = (b"37 <86>1 - - - - GRANT - door=0 person=0"
          b"45 <85>1 - - - - DENY - door=1 person=0 reason=1"
          b"36 <86>1 - - - - PASS - door=0 person=0")
# Each event of each door and person; of reason 3 each door with each held door.
EVENTS = [(msgid, door, person, reason, 0) for door in range(64) for person in range(64)
          for msgid, reason in (("GRANT", 0), ("DENY", 1), ("DENY", 2), ("DENY", 3), ("PASS", 0), ("LAPSE", 0))]
EVENTS += [("DENY", door, person, 3, held) for door in range(64) for person in (0, 63) for held in range(1, 64)]
# Events of which something doesn't fit.
NO_EVENTS = [("GRANT", 64, 0, 0, 0), ("GRANT", 0, 64, 0, 0), ("GRANT", 0, 0, 1, 0), ("DENY", 0, 0, 0, 0), ("DENY", 0, 0, 4, 0),
             ("LAPSE", 0, 0, 3, 0), ("DENY", 0, 0, 3, 64), ("DENY", 0, 0, 1, 1), ("DENY", 0, 0, 2, 64), ("DENY", 0, 0, 0, 1),
             ("GRANT", 0, 0, 0, 1), ("PASS", 0, 0, 0, 63), ("LAPSE", 0, 0, 3, 1)]

faults = []


def expect(what, found, expected):
    if found != expected:
        faults.append(f"{what}: {found} instead of {expected}")


def sheet(header, data):
    return "".join(row + "\r\n" for row in [header] + data).encode()


def site_sheet(without=(), instead=None):
    return sheet("kind,a,b", [(instead or {}).get(row, row) for row in SITE if row not in without])


def whole_run():
    site, steps = site_sheet(), sheet("step,door,person", STEPS)
    expect("the whole run", panel_text(site, steps), "".join(row + "\r\n" for row in PRINTED).encode())
    expect("where", where_text(site, steps), b"person,location\r\n0,1\r\n1,0\r\n")


def served(panel, *steps):
    """What the last of some steps is answered."""
    return [panel.step(*step) for step in steps][-1]


def through(panel, door, person):
    served(panel, ("card", door, person), ("decide", door), ("green", door), ("walk", door), ("passed", door), ("ack", door))


def twelve_cases():
    expect("case 1", verdict(site_sheet()), (0, 0, 0))
    expect("case 2", verdict(site_sheet(without=["exit,2,1"])), (6, 2, 0))
    expect("case 3", verdict(site_sheet(instead={"exit,1,0": "exit,1,2"})), (7, 1, 0))
    expect("case 4", verdict(site_sheet(without=["door,2,1"])), (8, 2, 0))
    expect("case 5", verdict(site_sheet(without=["right,0,1"])), (9, 0, 2))
    expect("case 6", verdict(site_sheet(without=["right,1,1"])), (10, 1, 0))
    site = read_site(site_sheet())
    row_6 = served(Panel(site), ("card", 0, 0), ("decide", 0), ("green", 0), ("walk", 0), ("card", 1, 0), ("decide", 1))
    expect("case 7", row_6, (0, 6, 1, 0))
    panel = Panel(site)
    through(panel, 0, 1)
    expect("case 8", served(panel, ("card", 1, 1), ("decide", 1)), (0, 6, 2, 0))
    panel = Panel(site)
    through(panel, 0, 0)
    expect("case 9", served(panel, ("card", 1, 0), ("decide", 1), ("card", 3, 0), ("decide", 3)), (0, 6, 3, 1))
    panel = Panel(site)
    burning = served(panel, ("card", 0, 0), ("decide", 0), ("green", 0), *[("tick", 0)] * 299)
    expect("case 10", burning, (0, GREEN, 0, 0))
    expect("case 11", served(panel, ("tick", 0)), (0, EXPIRED, 0, 0))
    expect("case 12", site.way_out(2), [1, 0])


def orders_twice():
    """C-13: an order for a light that burns is refused, and the light is out when it would have been."""
    panel = Panel(read_site(site_sheet()))
    expect("the first green", served(panel, ("card", 0, 0), ("decide", 0), ("green", 0)), (0, GREEN, 0, 0))
    expect("green again", served(panel, ("green", 0)), (12, GREEN, 0, 0))
    expect("green again at the last tick but one", served(panel, *[("tick", 0)] * 299, ("green", 0)), (12, GREEN, 0, 0))
    expect("300 ticks after the first", served(panel, ("tick", 0)), (0, EXPIRED, 0, 0))
    expect("the first red", served(panel, ("card", 1, 0), ("decide", 1), ("red", 1)), (0, RED, 0, 0))
    expect("red again", served(panel, *[("tick", 1)] * 19, ("red", 1)), (12, RED, 0, 0))
    expect("20 ticks after the first", served(panel, ("tick", 1)), (0, DIMMED, 0, 0))


def held_doors():
    """C-12: with reason 3 the door that is granted to the person, whatever else was granted, and 0 with all else."""
    two_more = sheet("kind,a,b", SITE + ["door,0,1", "door,0,2"])
    panel = Panel(read_site(two_more))
    expect("a grant", served(panel, ("card", 4, 0), ("decide", 4)), (0, 2, 0, 0))
    expect("another's grant", served(panel, ("card", 0, 1), ("decide", 0)), (0, 2, 0, 0))
    expect("reason 3 for a grant at door 4", served(panel, ("card", 5, 0), ("decide", 5)), (0, 6, 3, 4))
    expect("the door asked again", served(panel, ("decide", 5)), (12, 6, 0, 0))
    expect("reason 1 beside a grant", served(panel, ("card", 1, 0), ("decide", 1)), (0, 6, 1, 0))
    expect("no such door", served(panel, ("decide", 6)), (11, 0, 0, 0))
    panel = Panel(read_site(two_more))
    expect("reason 2 beside a grant", served(panel, ("card", 0, 1), ("decide", 0), ("card", 5, 1), ("decide", 5)), (0, 6, 2, 0))
    expect("reason 3 for a grant at door 0", served(panel, ("card", 4, 1), ("decide", 4)), (0, 6, 3, 0))
    expect("each event with its door", panel.events, [("GRANT", 0, 1, 0, 0), ("DENY", 5, 1, 2, 0), ("DENY", 4, 1, 3, 0)])


def rows_alone():
    """C-12: "every row the run prints" has the column."""
    hall, steps = site_sheet(), sheet("step,door,person", [""])
    for what, site, steps, row in (("a refused site", b"", steps, b"0,2,0,0,0"), ("a long steps sheet", hall, b"x" * 49153, b"0,1,0,0,0"),
                                   ("a wrong header", hall, b"step", b"0,2,0,0,0"), ("a row of bad form", hall, steps, b"1,2,0,0,0")):
        expect(f"the text of {what}", panel_text(site, steps), b"row,answer,phase,reason,held\r\n" + row + b"\r\n")


def answer(read, *given):
    """What a reader gives back, or the number of its refusal."""
    try:
        return read(*given)
    except Refused as refused:
        return refused.number


def lines_written():
    for event, text in ((EXAMPLE, EXAMPLE_LINE), (DENIAL, DENIAL_LINE), (HELD, HELD_LINE)):
        expect(f"the line of {event}", line(*event), text)
        expect(f"{event} in a list of its length", write(line, event, len(text)), (0, text))
        expect(f"{event} in a list a byte too short", write(line, event, len(text) - 1), (13, b""))
    expect("the frame of the example", frame(*EXAMPLE), b"37 " + EXAMPLE_LINE)
    for event, text in ((("PASS", 0, 63, 0, 0), b"<86>1 - - - - PASS - door=0 person=63"),
                        (("LAPSE", 0, 63, 0, 0), b"<86>1 - - - - LAPSE - door=0 person=63"),
                        (("DENY", 63, 63, 3, 63), b"<85>1 - - - - DENY - door=63 person=63 reason=3 held=63")):
        expect(f"the line of {event}", line(*event), text)
    for event in NO_EVENTS:
        expect(f"{event}, which doesn't fit, in no list", write(line, event, 0), (11, b""))


def lines_read():
    """Each event comes back from its line and its frame, and no two share a line. A line or a frame that is cut is refused."""
    for event in EVENTS:
        expect(f"{event} from its line", answer(read_line, line(*event)), event)
        text = frame(*event)
        expect(f"{event} from its frame", answer(read_frame, b"-" + text + b"-", 1), (event, 1 + len(text)))
    expect("the lines of all events that fit", len({line(*event) for event in EVENTS}), len(EVENTS))
    for text in NO_LINES:
        expect(f"the line {text}", answer(read_line, text), 15)
    for text in NO_FRAMES + [b"%d %s" % (len(text), text) for text in NO_LINES]:
        expect(f"the frame {text}", answer(read_frame, text, 0), 15)
    for text in (EXAMPLE_LINE, DENIAL_LINE, HELD_LINE):
        for cut in range(len(text)):
            expect(f"the first {cut} bytes of a line", answer(read_line, text[:cut]), 15)
            expect(f"a line without its first {cut + 1} bytes", answer(read_line, text[cut + 1:]), 15)


def streams_read():
    expect("the stream of the whole run", events_text(site_sheet(), sheet("step,door,person", STEPS)), STREAM)
    expect("the stream of a refused site", events_text(b"", sheet("step,door,person", STEPS)), b"")
    header = "answer,event,door,person,reason,held\r\n"
    rows = ["0,GRANT,0,0,0,0\r\n", "0,DENY,1,0,1,0\r\n", "0,PASS,0,0,0,0\r\n"]
    ends = [0, 40, 88, len(STREAM)]
    for cut in range(len(STREAM) + 1):
        whole = sum(end <= cut for end in ends) - 1
        last = [] if cut in ends else ["15,,0,0,0,0\r\n"]
        expect(f"the first {cut} bytes of a stream", read_events_text(STREAM[:cut]), "".join([header] + rows[:whole] + last).encode())
    expect("the end of a stream", answer(read_frame, STREAM, len(STREAM)), None)
    expect("a place past the end", answer(read_frame, STREAM, len(STREAM) + 1), 15)
    for text, number in ((b"1" * LONGEST_STREAM, 15), (b"1" * (LONGEST_STREAM + 1), 1)):
        expect(f"a stream of {len(text)} bytes", read_events_text(text), f"{header}{number},,0,0,0,0\r\n".encode())
    expect("a stream with a held door", read_events_text(frame(*HELD)), f"{header}0,DENY,3,1,3,2\r\n".encode())


whole_run()
twelve_cases()
orders_twice()
held_doors()
rows_alone()
lines_written()
lines_read()
streams_read()
for fault in faults:
    print("reference:", fault)
print(f"reference: the paper's run, its 12 cases, orders that come twice, held doors and the syslog lines, {len(faults)} faults")
sys.exit(1 if faults else 0)

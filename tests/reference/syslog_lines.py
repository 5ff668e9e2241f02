"""Decisions as syslog lines, in plain Python and from C-11 and C-12 of paper 02, RFC 5424 and RFC 6587 alone.

An event is a word, a door, a person, a reason and a held door. Writing puts its line together as 02 says it. Reading doesn't ask the
writer: it takes a message apart by the grammar of RFC 5424, section 6, and then asks for what 02 says of each part. `NotOurs` tells why
bytes are no such line; the number is 15 for all of them.
"""
import itertools
import re

from panel import ELSEWHERE, Refused, events_of, text

DONE, TOO_LONG, NO_SUCH, TOO_SHORT, NOT_A_LINE = 0, 1, 11, 13, 15
MSGIDS = ["GRANT", "DENY", "PASS", "LAPSE"]
FACILITY, NOTICE, INFORMATIONAL = 10, 5, 6
HIGHEST = 63                 # the last door and the last person
DENIAL_REASONS = (1, 2, ELSEWHERE)
NO_EVENT = ("", 0, 0, 0, 0)  # what is told with a refusal
LONGEST_STREAM = 524288
MOST_DIGITS = 9              # a number of more digits is no door, no person, no reason and no count of ours


class NotOurs(Refused):
    """Number 15, with what is wrong in words."""

    def __init__(self, why):
        super().__init__(NOT_A_LINE)
        self.why = why


def severity_of(msgid):
    return NOTICE if msgid == "DENY" else INFORMATIONAL


def reason_fits(msgid, reason):
    return reason in DENIAL_REASONS if msgid == "DENY" else reason == 0


def held_fits(reason, held):
    return held <= HIGHEST if reason == ELSEWHERE else held == 0


def fits(msgid, door, person, reason, held):
    return door <= HIGHEST and person <= HIGHEST and reason_fits(msgid, reason) and held_fits(reason, held)


def fitting(numbers):
    """The events that fit, whose doors and persons are of these numbers; 0 is among them."""
    return [event for event in itertools.product(MSGIDS, numbers, numbers, (0, *DENIAL_REASONS), numbers) if fits(*event)]


# ---- Writing

def line(msgid, door, person, reason, held):
    """The line of an event that fits."""
    why = f" reason={reason}" if msgid == "DENY" else ""
    last = f" held={held}" if reason == ELSEWHERE else ""
    return f"<{8 * FACILITY + severity_of(msgid)}>1 - - - - {msgid} - door={door} person={person}{why}{last}".encode()


def frame(*event):
    """The line with its octet count in front, by RFC 6587, section 3.4.1."""
    return b"%d %s" % (len(line(*event)), line(*event))


def write(form, event, room):
    """The number and the text for an event in a form, `line` or `frame`, and a list of so many bytes; no text with a refusal."""
    if not fits(*event):
        return NO_SUCH, b""
    return (DONE, form(*event)) if len(form(*event)) <= room else (TOO_SHORT, b"")


# ---- Reading

# RFC 5424, section 6: a name for each part, NILVALUE among what it may be. The ranges of a time and UTF-8 aren't asked: with a time,
# structured data or a byte of 128 and up it is no line of ours anyway.
TIMESTAMP = rb"[0-9]{4}-[0-9]{2}-[0-9]{2}T[0-9]{2}:[0-9]{2}:[0-9]{2}(?:\.[0-9]{1,6})?(?:Z|[+-][0-9]{2}:[0-9]{2})"
SD_NAME = rb"[!#-<>-\\^-~]{1,32}"
SD_ELEMENT = rb"\[" + SD_NAME + rb"(?: " + SD_NAME + rb'="(?:[^"\\\]]|\\.)*")*\]'
PARTS = [
    rb"<(?P<prival>[0-9]{1,3})>(?P<version>[1-9][0-9]{0,2})",
    rb" (?P<timestamp>-|" + TIMESTAMP + rb")",
    rb" (?P<hostname>[!-~]{1,255})",
    rb" (?P<appname>[!-~]{1,48})",
    rb" (?P<procid>[!-~]{1,128})",
    rb" (?P<msgid>[!-~]{1,32})",
    rb" (?P<data>-|(?:" + SD_ELEMENT + rb")+)",
    rb"(?: (?P<msg>.*))?",
]
MESSAGE = re.compile(b"".join(PARTS), re.S)
# RFC 6587, section 3.4.1: MSG-LEN and the blank behind it.
COUNT = re.compile(rb"([1-9][0-9]*) ")
# What 02 has nil.
NIL = ["timestamp", "hostname", "appname", "procid", "data"]


def decimal(digits):
    """The number that some bytes are, decimal and without needless zeros."""
    if not re.fullmatch(rb"0|[1-9][0-9]*", digits):
        raise NotOurs("a number isn't decimal without needless zeros")
    if len(digits) > MOST_DIGITS:
        raise NotOurs("a number is huge")
    return int(digits)


def values(msg, names):
    """The numbers of a message that is `name=number` for each of these names in turn, with a blank between."""
    fields = [field.partition(b"=") for field in msg.split(b" ")]
    if [name + equals for name, equals, _ in fields] != [name.encode() + b"=" for name in names]:
        raise NotOurs("the message has other fields")
    return [decimal(digits) for _, _, digits in fields]


def read_event(msgid, msg):
    """The event of a MSGID that is ours and of the message behind it."""
    is_denial, is_held = msgid == "DENY", b" held=" in msg
    numbers = values(msg, ["door", "person"] + ["reason"] * is_denial + ["held"] * is_held)
    is_elsewhere = is_denial and numbers[2] == ELSEWHERE
    if is_held and not is_elsewhere:
        raise NotOurs("a held door is told without reason 3")
    if is_elsewhere and not is_held:
        raise NotOurs("reason 3 is told without a held door")
    event = (msgid, *numbers, 0, 0)[:5]  # what isn't told is 0
    if not fits(*event):
        raise NotOurs("the event doesn't fit")
    return event


def read_message(message):
    """The parts of a message by RFC 5424."""
    found = MESSAGE.fullmatch(message)
    if not found:
        raise NotOurs("it is no message of RFC 5424")
    if decimal(found["prival"]) > 191:
        raise NotOurs("no facility has that priority")
    return found


def read_line(message):
    """The event whose line a message is; or NotOurs."""
    parts = read_message(message)
    if parts["version"] != b"1":
        raise NotOurs("the version isn't 1")
    for name in NIL:
        if parts[name] != b"-":
            raise NotOurs(f"the {name} isn't nil")
    msgid = parts["msgid"].decode()
    if msgid not in MSGIDS:
        raise NotOurs("the msgid isn't ours")
    facility, severity = divmod(decimal(parts["prival"]), 8)
    if facility != FACILITY:
        raise NotOurs("the facility isn't 10")
    if severity != severity_of(msgid):
        raise NotOurs("the severity doesn't fit the event")
    return read_event(msgid, parts["msg"] or b"")


def read_frame(stream, at):
    """The event whose frame begins at a place of a stream, and the place behind it; None where the stream ends; or NotOurs."""
    if at == len(stream):
        return None
    count = COUNT.match(stream, at)
    if not count:
        raise NotOurs("no count is there")
    length = decimal(count[1])
    if len(stream) - count.end() < length:
        raise NotOurs("the stream is shorter than the count")
    behind = count.end() + length
    return read_line(stream[count.end():behind]), behind


def read_stream(stream):
    """The frames of a stream, each its event and the place behind it; NotOurs at the first place that is none."""
    at = 0
    while found := read_frame(stream, at):
        yield found
        at = found[1]


# ---- The two programs

def events_text(site_sheet, steps_sheet):
    """What `events` writes for the two sheets: a stream."""
    return b"".join(frame(*event) for event in events_of(site_sheet, steps_sheet))


def read_events_text(stream):
    """What `read_events` prints for a stream."""
    header, lines = "answer,event,door,person,reason,held", []
    if len(stream) > LONGEST_STREAM:
        return text(header, [(TOO_LONG, *NO_EVENT)])
    try:
        for event, _ in read_stream(stream):
            lines.append((DONE, *event))
    except NotOurs:
        lines.append((NOT_A_LINE, *NO_EVENT))
    return text(header, lines)

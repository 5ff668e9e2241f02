"""The panel's own loop beside plain C: how long a row waits for its answer, and how many rows a second go through a pipe."""
import os
import statistics
import subprocess
import threading
import time

from programs import fail, say
from sheets import steps_sheet

ROWS_ALONE = 10_000
ROWS_PIPED = 50_000
AT_ONCE = 65_536  # bytes that a pipe is given or read from at a time


def some_rows(count):
    """So many rows of a lively steps sheet, which begins anew where it ends."""
    rows = steps_sheet(64, together=4).split(b"\r\n")[1:-1]
    return [rows[n % len(rows)] + b"\r\n" for n in range(count)]


class Loop:
    """A program that answers rows: what is written to it, and what it writes."""

    def __init__(self, program, folder):
        words, environment = program
        self.process = subprocess.Popen(words, cwd=folder, env=environment, stdin=subprocess.PIPE, stdout=subprocess.PIPE, bufsize=0)
        self.send(b"step,door,person\r\n")
        self.answers = [self.line()]

    def send(self, text):
        text = memoryview(text)
        while text:
            text = text[os.write(self.process.stdin.fileno(), text):]

    def line(self):
        """What it writes, up to the end of a row."""
        text = b""
        while not text.endswith(b"\n"):
            more = os.read(self.process.stdout.fileno(), AT_ONCE)
            if not more:
                fail("a live program ended before it had answered")
            text += more
        return text

    def written(self, rows):
        """All that it has written when its input has ended: a header, and an answer for each row."""
        while more := os.read(self.process.stdout.fileno(), AT_ONCE):
            self.answers.append(more)
        text = b"".join(self.answers)
        if self.process.wait() != 0 or text.count(b"\n") != rows + 1:
            fail("a live program failed")
        return text


def waits(program, folder):
    """For each row the microseconds from its last byte to its answer's last byte, and all that was written."""
    loop, taken = Loop(program, folder), []
    for row in some_rows(ROWS_ALONE):
        begun = time.perf_counter_ns()
        loop.send(row)
        loop.answers.append(loop.line())
        taken.append((time.perf_counter_ns() - begun) / 1000)
    loop.process.stdin.close()
    return taken, loop.written(ROWS_ALONE)


def piped(program, folder):
    """How many rows a second go through a pipe, and all that was written."""
    loop, text = Loop(program, folder), b"".join(some_rows(ROWS_PIPED))
    begun = time.perf_counter()
    feeding = threading.Thread(target=lambda: (loop.send(text), loop.process.stdin.close()))
    feeding.start()
    written = loop.written(ROWS_PIPED)
    feeding.join()
    return ROWS_PIPED / (time.perf_counter() - begun), written


def live_costs(programs, folder):
    """What each of these programs takes; all have to write the same bytes."""
    texts = []
    for name, program in programs.items():
        taken, text = waits(program, folder)
        a_second, other = piped(program, folder)
        texts.append((text, other))
        say(f"rows as they come, {name}: a row waits {statistics.median(taken):.0f} microseconds (median of {ROWS_ALONE:,}, the worst {max(taken):.0f}); "
            f"{a_second:,.0f} rows a second through a pipe")
    if any(pair != texts[0] for pair in texts):
        fail("the two live programs print different bytes")

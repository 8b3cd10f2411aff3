"""How far long work is, on standard error: one line that is renewed on a terminal, and nothing but what stays elsewhere."""
import contextlib
import os
import sys
import threading
import time

# Processor seconds behind which the pace so far tells what is left, and those of a crate that bench/gate.tsv doesn't have.
ENOUGH, UNKNOWN = 60, 30


class Line:
    """A line that is renewed, where standard error is a terminal, below the lines that stay."""

    def __init__(self, name):
        self.name, self.is_terminal, self.shown, self.lock = name, sys.stderr.isatty(), '', threading.Lock()

    def _put(self, text):
        if text != self.shown:
            # The rest of the line is erased, so that a shorter text leaves nothing of a longer one.
            print(f'\r{text}\033[K', end='', file=sys.stderr, flush=True)
            self.shown = text

    def show(self, text):
        """Renews the line; elsewhere than on a terminal it does nothing."""
        if self.is_terminal:
            with self.lock:
                columns = os.get_terminal_size(sys.stderr.fileno()).columns or 80
                self._put(f'{self.name}: {text}'[:columns - 1])

    @contextlib.contextmanager
    def above(self):
        """Lets something be printed above the line."""
        with self.lock:
            shown = self.shown
            if shown:
                self._put('')
            yield
            if shown:
                self._put(shown)

    def say(self, text):
        """Prints a line that stays."""
        with self.above():
            print(f'{self.name}: {text}', file=sys.stderr, flush=True)

    def clear(self):
        """Takes the line away."""
        with self.lock:
            if self.shown:
                self._put('')


class Crates:
    """How many of the crates are done, for how long they have been worked on, and about how long the others take, by the processor seconds of
    each."""

    def __init__(self, seconds, lanes):
        self.left, self.count, self.lanes = dict(seconds), len(seconds), lanes
        self.worked, self.started = 0, time.monotonic()

    def end(self, name, was_kept=False):
        """Notes that a crate is done; one that was kept took no time."""
        seconds = self.left.pop(name, 0)
        self.worked += 0 if was_kept else seconds

    def text(self):
        so_far = time.monotonic() - self.started
        told = f'{self.count - len(self.left)} of {self.count} crates, {so_far / 60:.0f} minutes so far'
        pace = self.worked / so_far if self.worked >= ENOUGH else self.lanes
        return f'{told}, about {max(1, round(sum(self.left.values()) / pace / 60))} left' if self.left else told


@contextlib.contextmanager
def ticking(name, what, minutes):
    """Tells what is done in here: elsewhere than on a terminal once, and there with the seconds so far."""
    line, started, over = Line(name), time.monotonic(), threading.Event()

    def tick():
        while not over.wait(1):
            line.show(f'{what}: {time.monotonic() - started:.0f} seconds of about {60 * minutes}')

    if not line.is_terminal:
        line.say(f'{what}; about {minutes} minutes')
    ticker = threading.Thread(target=tick, daemon=True)
    ticker.start()
    try:
        yield
    finally:
        over.set()
        ticker.join()
        line.clear()

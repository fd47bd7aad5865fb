"""How the two builds tell how far they are."""

import sys
import threading
import time

# Where the line isn't rewritten, the longest time without one, in seconds.
SILENCE = 20


class Progress:
    """Reports how far a build is: a line for each thing begun, and one after each 20 seconds without; or, on a terminal, one line that is rewritten each second."""

    def __init__(self, what, silence=SILENCE):
        self.begun, self.is_rewritten, self.what = time.monotonic(), sys.stderr.isatty(), what
        self.count, self.done, self.at, self.steps, self.writing = 0, 0, [], {}, threading.Lock()
        self.silence, self.written = silence, self.begun

    def minutes(self):
        seconds = int(time.monotonic() - self.begun)
        return f"{seconds // 60} min {seconds % 60:02} s"

    def begin(self, name):
        with self.writing:
            self.at.append(name)
            self.put("" if self.is_rewritten else "\n")

    def step(self, name, what):
        """Says what is done with it now."""
        with self.writing:
            self.steps[name] = what
            self.put("" if self.is_rewritten else "\n")

    def end(self, name, is_well):
        with self.writing:
            self.at.remove(name)
            self.done += is_well

    def add(self):
        """Counts one that took no work."""
        with self.writing:
            self.done += 1

    def put(self, end):
        at = ", ".join(f"{it} ({self.steps[it]})" if it in self.steps else it for it in self.at)
        text = f"epaxos: {self.done} of {self.count} {self.what}, at {at} ({self.minutes()})"
        self.write("\r\033[K" * self.is_rewritten + text + end)

    def start(self):
        """Reports it again from now on: rewrites the line each second, or writes one where there was none for long."""
        threading.Thread(target=self.tick, daemon=True).start()

    def tick(self):
        while True:
            time.sleep(min(1, self.silence))
            with self.writing:
                is_silent = time.monotonic() - self.written >= self.silence
                if self.at and (self.is_rewritten or is_silent):
                    self.put("" if self.is_rewritten else "\n")

    def line(self, text):
        with self.writing:
            self.write("\r\033[K" * self.is_rewritten + f"epaxos: {text}\n")

    def write(self, text):
        self.written = time.monotonic()
        try:
            print(text, end="", file=sys.stderr, flush=True)
        except OSError:
            pass

"""Runs a crate's program with each of its reads failed in turn, and each of its writes.

usage: tools/sweep devices CRATE -- ARGUMENT..

Takes the program that `rt run` left in crates/CRATE/out, with these arguments and the standard input, which is read once. It runs once on devices that
work, which counts its reads of standard input and its writes on standard output and on the fault output. Then it runs
- once for each read, which fails: it has to end with status 4, `reading failed` on the fault output and nothing on standard output;
- once for each write, which fails, and once with a pipe that nobody reads as standard output: with status 4 and `writing failed`, and what it wrote before
  is how its output begins;
- once more for each of these, with a fault output that fails too: it ends so, but for the line;
- once for each write on the fault output, which fails, where it ends with a fault anyway: with the same status and output;
- with reads and writes of one byte each: just as on devices that work.
On devices that work it may read once for each 8 KiB of the input, for what is left then and to see that it has ended, and write once for each 8 KiB of
its output. Prints one line; fails where a run ended otherwise, and tells the first such run.
"""

import os
import sys

import sweep

FAILED = 4
# how many bytes a read or a write moves where there are as many
BLOCK = 8192
FAILER = r"""
#define INPUT_OUTPUT_ERROR 5

static long (*take)(int, void *, size), (*give)(int, const void *, size);
static long failed[3], most;

__attribute__((constructor)) static void begin(void) {
    take = dlsym(NEXT, "read");
    give = dlsym(NEXT, "write");
    failed[0] = number("FAILED_READ");
    failed[1] = number("FAILED_WRITE");
    failed[2] = number("FAILED_LINE");
    most = number("MOST");
}

static int fails(int file) {
    if (file < 0 || file > 2 || ++counted[file] != failed[file]) return 0;
    *__errno_location() = INPUT_OUTPUT_ERROR;
    return 1;
}

static size part(size bytes) {
    return most && bytes > (size)most ? (size)most : bytes;
}

long read(int file, void *bytes, size count) {
    return fails(file) ? -1 : take(file, bytes, part(count));
}

long write(int file, const void *bytes, size count) {
    return fails(file) ? -1 : give(file, bytes, part(count));
}
"""


# a pipe that nobody reads: made before any run, since what is begun side by side may hold its reading end for a moment
READING, UNREAD = os.pipe()
os.close(READING)


def unread(tried, **settings):
    """How it ends where its standard output is a pipe that nobody reads: what it wrote there is reported as nothing."""
    return tried.run(UNREAD, **settings)


def faults(tried, well, counts):
    """Each run on a device that fails: what it is, the run, and whether it ended as it has to."""
    reads, writes, lines = counts

    def devices():
        """Each fault of a device: what it is, the run, the line that reports it, and how its output may begin."""
        for at in range(1, reads + 1):
            yield f"read {at}", lambda at=at, **more: tried.run(FAILED_READ=at, **more), b"reading failed\n", b""
        for at in range(1, writes + 1):
            yield f"write {at}", lambda at=at, **more: tried.run(FAILED_WRITE=at, **more), b"writing failed\n", well.output
        if writes:
            yield "a pipe that nobody reads", lambda **more: unread(tried, **more), b"writing failed\n", b""

    for what, call, line, output in devices():
        is_told = lambda it, line, output=output: it.status == FAILED and it.told == line and output.startswith(it.output)
        yield what, call, lambda it, line=line, is_told=is_told: is_told(it, line)
        yield f"{what}, untold", lambda call=call: call(FAILED_LINE=1), lambda it, is_told=is_told: is_told(it, b"")
    for at in range(1, lines + 1):
        yield f"line {at}", lambda at=at: tried.run(FAILED_LINE=at), lambda it: (it.status, it.output) == (well.status, well.output)
    yield "a byte at a time", lambda: tried.run(MOST=1), lambda it: it == well


def main(words, room):
    words, asked = sweep.command(words)
    if len(words) != 1 or asked is None:
        return None
    program = sweep.built(words[0])
    tried = sweep.Under(sweep.preloaded(FAILER, room), [program, *asked], sys.stdin.buffer.read(), room)
    well, counts = tried.counts()
    few = [] if counts[0] <= len(tried.given) // BLOCK + 2 and counts[1] <= len(well.output) // BLOCK + 1 else [("", "it reads or writes more often than it may")]
    cases = [*faults(tried, well, counts)]
    ran = sweep.side_by_side(lambda case: case[1](), cases)
    found = [("well" if holds(it) else "", f"{what}: {it}") for (what, _, holds), it in zip(cases, ran)]
    head = f"{' '.join(asked)}: {counts[0]} reads, {counts[1]} writes, {counts[2]} on the fault output"
    return sweep.tell(head, {"well": "runs ended as they have to"}, [*few, *found])


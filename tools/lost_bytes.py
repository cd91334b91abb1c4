#!/usr/bin/env python3
"""Runs the box with a standard output that loses bytes, and looks at what comes out: a beginning of the page that is due, with `end=` (or
`refused=`) only after the whole listing.

  tools/lost_bytes.py [--host FILE]

Outputs with room for k bytes, for each k from 0 to more than the page: a file that may not grow beyond k bytes, where a write is cut; and a
pipe that nobody reads, filled but for k bytes, where a write that does not fit is refused whole. And two that take nothing: a pipe whose
reader is gone, and /dev/full. With --host the C host is tried in the same ways, in parts too; its exit status must be 1 where a byte is lost, else 0.
"""
import argparse
import fcntl
import os
import pathlib
import re
import resource
import signal
import subprocess
import sys
import tempfile

ROOT = pathlib.Path(__file__).resolve().parent.parent
PIPE_PAGE = 4096                    # a pipe's room comes in pages, of which the pipes here have two
PART = "150"                        # bytes of output for a part: one block of twill8
UNDECLARED = b"edition=1\nscalars=2\nlocals=0\narrays=\ngiven=\nformula=eq v5 1\n", b"refused=7\nat=55\n"


def run(words, sheet, output, limit=resource.RLIM_INFINITY):
    """The exit status of a program that reads the sheet and writes to the output."""
    def lose():
        resource.setrlimit(resource.RLIMIT_FSIZE, (limit, limit))
        for lost in (signal.SIGXFSZ, signal.SIGPIPE):
            signal.signal(lost, signal.SIG_IGN)         # a lost byte is a failed write and no signal
    with open(sheet, "rb") as source:
        return subprocess.run(words, stdin=source, stdout=output, stderr=subprocess.DEVNULL, preexec_fn=lose, restore_signals=False).returncode


def to_file(words, sheet, k):
    with tempfile.TemporaryFile() as file:
        status = run(words, sheet, file, k)
        file.seek(0)
        return file.read(), status


def to_pipe(words, sheet, k):
    source, sink = os.pipe2(os.O_NONBLOCK)
    fcntl.fcntl(sink, fcntl.F_SETPIPE_SZ, 2 * PIPE_PAGE)
    filled = os.write(sink, bytes(2 * PIPE_PAGE - k))
    status = run(words, sheet, sink)
    os.close(sink)
    with open(source, "rb") as rest:
        return rest.read()[filled:], status


def to_nobody(words, sheet, k):
    source, sink = os.pipe()
    os.close(source)
    status = run(words, sheet, sink)
    os.close(sink)
    return b"", status


def to_full(words, sheet, k):
    with open("/dev/full", "wb") as full:
        return b"", run(words, sheet, full)


def faults(way, page, out, status, has_status):
    closing = re.compile(rb"^(end|refused)=", re.M)
    if not page.startswith(out):
        yield "%r is no beginning of the page" % out
    whole = len(page) if way is to_pipe else closing.search(page).start()
    if closing.search(out) and len(out) < whole:
        yield "%r has an end, and bytes before it are lost" % out
    if has_status and status != (out != page):
        yield "status %d" % status


def main():
    parser = argparse.ArgumentParser()
    parser.add_argument("--host")
    host = parser.parse_args().host
    runs = whole = 0
    with tempfile.TemporaryDirectory() as folder:
        refused = pathlib.Path(folder) / "refused.sheet"
        refused.write_bytes(UNDECLARED[0])
        pages = {str(refused): UNDECLARED[1]}
        for sheet in (ROOT / "sheets/twill8.sheet", ROOT / "sheets/queens8.sheet"):
            pages[str(sheet)] = sheet.with_suffix(".expected").read_bytes()
        for sheet, page in pages.items():
            programs = [[str(ROOT / "crates/pattern_box/out/pattern_box")]]
            if host:
                programs.append([host, sheet, "512", "1000000", "0", "4096"])
            if host and b"end=output" not in page:
                programs.append([host, "--parts", sheet, "512", "1000000", PART])
            rooms = range(len(page) + 2)
            for words in programs:
                for way, k in [(to_nobody, 0), (to_full, 0)] + [(to_file, k) for k in rooms] + [(to_pipe, k) for k in rooms]:
                    out, status = way(words, sheet, k)
                    wrong = list(faults(way, page, out, status, len(words) > 1))
                    if wrong:
                        sys.exit("%s, %s, room for %d bytes: %s" % (" ".join(words), way.__name__, k, "; ".join(wrong)))
                    runs, whole = runs + 1, whole + (out == page)
    print("%d runs, %d of them with the whole page; no other told an end after a lost byte" % (runs, whole))


if __name__ == "__main__":
    main()

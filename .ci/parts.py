#!/usr/bin/env python3
"""parts.py SIZE FILE: writes the file to a pipe, on standard output, in parts of SIZE bytes.

Each part waits until whoever reads has taken the one before, so no read ever finds two of them: a
program that takes one read for the whole of its input shows it. A reader that stops early is left.
"""
import fcntl
import select
import struct
import sys
import termios
import time

PIPE = 1
WAIT = 0.0002


def unread():
    """How many bytes stand in the pipe."""
    return struct.unpack("i", fcntl.ioctl(PIPE, termios.FIONREAD, b"\0" * 4))[0]


def reader_is_gone(pipe):
    return any(event & select.POLLERR for _, event in pipe.poll(0))


def main(size, name):
    with open(name, "rb") as file:
        whole = file.read()
    pipe = select.poll()
    pipe.register(PIPE, 0)
    with open(PIPE, "wb", buffering=0) as out:
        for start in range(0, len(whole), size):
            while unread() and not reader_is_gone(pipe):
                time.sleep(WAIT)
            if reader_is_gone(pipe):
                return
            out.write(whole[start : start + size])


if __name__ == "__main__":
    try:
        main(int(sys.argv[1]), sys.argv[2])
    except BrokenPipeError:
        pass

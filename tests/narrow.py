#!/usr/bin/env python3
"""Whether what a program prints into a pipe with little room is a beginning of its text: narrow.py PROGRAM INPUT.

The pipe does not wait where it is full: a write fails, and a shorter one after it could still fit. So a program that goes on
after a failed write leaves holes in its text. Each room up to a few lines is tried. A long text leaves the program in parts as
long as its buffer, and none is short: so the pipe is also read from while the program prints, which makes room after a failed
write. The status is 0 where all went well. Whoever starts this script ends it where the program hangs.
"""
import fcntl
import os
import subprocess
import sys

PIPE = 4096
ROOMS = range(0, 200)
# How often it is read from meanwhile: whether a write fails then is chance, and in which turn.
TIMES = 20


def printed(program, book, output):
    with open(book, 'rb') as input:
        return subprocess.run([program], stdin=input, stdout=output)


def beginning(program, book, room):
    """What comes out where the pipe has so much room."""
    reader, writer = os.pipe()
    fcntl.fcntl(writer, fcntl.F_SETPIPE_SZ, PIPE)
    os.set_blocking(writer, False)
    os.write(writer, bytes(PIPE - room))
    printed(program, book, writer)
    os.close(writer)
    with open(reader, 'rb') as all:
        return all.read()[PIPE - room:]


def read_meanwhile(program, book):
    """What comes out where the pipe is read from meanwhile."""
    reader, writer = os.pipe()
    fcntl.fcntl(writer, fcntl.F_SETPIPE_SZ, PIPE)
    os.set_blocking(writer, False)
    found = b''
    with open(book, 'rb') as input, subprocess.Popen([program], stdin=input, stdout=writer):
        os.close(writer)
        while some := os.read(reader, PIPE):
            found += some
    os.close(reader)
    return found


program, book = sys.argv[1:]
text = printed(program, book, subprocess.PIPE).stdout
found = [(f'room for {room} bytes', beginning(program, book, room)) for room in ROOMS]
found += [('read meanwhile', read_meanwhile(program, book)) for _ in range(TIMES)]
holes = [(pipe, out) for pipe, out in found if not text.startswith(out)]
for pipe, out in holes[:5]:
    print(f'        {pipe}: {out[-200:]}')
sys.exit(bool(holes) or not text)

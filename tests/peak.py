#!/usr/bin/env python3
"""Prints the most memory, in KB, that a program holds at a time for an input: peak.py PROGRAM INPUT.

The standard output that the program gets is a pipe that is full, so it waits there with its work done; then the kernel is
asked. What the kernel says of a child that has ended would count the memory of this script too, from before the child
became the program.
"""
import os
import pathlib
import re
import subprocess
import sys
import time

PATIENCE = 30

program, book = sys.argv[1:]
reader, writer = os.pipe()
os.set_blocking(writer, False)
try:
    while True:
        os.write(writer, bytes(4096))
except BlockingIOError:
    os.set_blocking(writer, True)


def waits_to_write(process):
    """The first word is the number of the system call that the process is in: 1 is write."""
    return pathlib.Path(f'/proc/{process.pid}/syscall').read_text().split()[:2] == ['1', '0x1']


with open(book, 'rb') as input:
    process = subprocess.Popen([program], stdin=input, stdout=writer)
os.close(writer)
end = time.monotonic() + PATIENCE
while not waits_to_write(process):
    if time.monotonic() > end:
        process.kill()
        sys.exit(f'{program} does not print anything')
    time.sleep(0.001)
status = pathlib.Path(f'/proc/{process.pid}/status').read_text()
while os.read(reader, 65536):
    pass
process.wait()
print(re.search(r'VmHWM:\s*(\d+) kB', status)[1])

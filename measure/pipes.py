"""Runs commands with pipes at both ends, and times them. Scripts of this folder use it."""
import os
import subprocess
import time

PIECE = 1 << 20


def give(file, parts):
    """Writes bytes to a pipe."""
    for part in parts:
        left = memoryview(part)
        while left:
            left = left[os.write(file, left[:PIECE]):]


def ran(words, output, parts=()):
    """Runs a command on an input until it ends, and answers the seconds."""
    began = time.monotonic()
    with subprocess.Popen(words, stdin=subprocess.PIPE, stdout=output) as it:
        give(it.stdin.fileno(), parts)
        it.stdin.close()
    if it.returncode:
        raise SystemExit(f'{" ".join(words)}: status {it.returncode}')
    return time.monotonic() - began


def dropped(words, parts=()):
    """Runs a command whose output is read and discarded, and answers how many bytes came and the seconds."""
    buffer, count = bytearray(PIECE), 0
    began = time.monotonic()
    with subprocess.Popen(words, stdin=subprocess.PIPE, stdout=subprocess.PIPE) as it:
        give(it.stdin.fileno(), parts)
        it.stdin.close()
        while came := os.readv(it.stdout.fileno(), [buffer]):
            count += came
    seconds = time.monotonic() - began
    if it.returncode:
        raise SystemExit(f'{" ".join(words)}: status {it.returncode}')
    return count, seconds


def body(size, number):
    """The bytes of an object: lines of 8 bytes, all different."""
    return b''.join(b'%07x\n' % ((number * 1000003 + n) & 0xfffffff) for n in range(size // 8))

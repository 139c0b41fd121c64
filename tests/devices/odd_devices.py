"""The program over devices that a shell can't make: input that comes in parts and may fail after them, and output that tells each write
or fails after some bytes. All are made of sockets and of a limit on the length of files, as Linux has them.

A read of a socket of packets gives one packet. A socket whose other end is closed with unread bytes in it gives what was written to
it, and then an error. A write beyond the limit on the length of a file writes up to it, and then fails.
"""

import contextlib
import resource
import socket
import subprocess
import tempfile

MOST = 1 << 20


def parts_given(parts):
    """A device that gives these parts, each to one read, and then ends; none of them is empty."""
    ours, device = socket.socketpair(socket.AF_UNIX, socket.SOCK_SEQPACKET)
    with ours:
        for part in parts:
            ours.send(part)
    return device


def failing_after(data):
    """A device that gives these bytes to one read, and fails after them."""
    ours, device = socket.socketpair(socket.AF_UNIX, socket.SOCK_STREAM)
    with ours:
        device.send(b"unread")
        ours.send(data)
    return device


def left_in(device):
    """How many parts nobody read."""
    device.setblocking(False)
    count = 0
    with contextlib.suppress(BlockingIOError, ConnectionResetError):
        while device.recv(MOST):
            count += 1
    return count


class Devices:
    """A program's runs over such devices."""

    def __init__(self, path):
        self.path = path

    def run(self, words, **more):
        """A run: standard output, standard error and the status."""
        ended = subprocess.run([self.path, *words], check=False, **{"stdout": subprocess.PIPE, "stderr": subprocess.PIPE, **more})
        return ended.stdout, ended.stderr, ended.returncode

    def in_parts(self, words, parts):
        """A run on an input that comes in parts: each write, then standard error and the status."""
        ours, output = socket.socketpair(socket.AF_UNIX, socket.SOCK_SEQPACKET)
        with ours, parts_given(parts) as device:
            with output:
                _, errors, status = self.run(words, stdin=device, stdout=output)
            return list(iter(lambda: ours.recv(MOST), b"")), errors, status

    def read_fails(self, words, data):
        """A run on a device that fails after some bytes."""
        with failing_after(data) as device:
            return self.run(words, stdin=device)

    def write_fails(self, words, parts, most):
        """A run whose output takes so many bytes, on an input that comes in parts: what was written, standard error, the status, and
        how many parts were left unread."""
        with tempfile.TemporaryFile() as file, parts_given(parts) as device:
            limit = lambda: resource.setrlimit(resource.RLIMIT_FSIZE, (most, most))  # noqa: E731
            _, errors, status = self.run(words, stdin=device, stdout=file, restore_signals=False, preexec_fn=limit)
            file.seek(0)
            return file.read(), errors, status, left_in(device)

    def never_written(self, words, data, path):
        """A run whose output is a device of this path that takes nothing, or is closed where there is no path."""
        with tempfile.TemporaryFile() as file:
            file.write(data)
            file.seek(0)
            if path is None:
                return self.run(["-c", 'exec "$0" "$@" >&-', self.path, *words], stdin=file, executable="/bin/sh")[1:]
            with open(path, "wb") as output:
                return self.run(words, stdin=file, stdout=output)[1:]

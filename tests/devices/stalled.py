"""A session of iptsim whose first write fails, on a device that takes what is written after it.

The device is a socket that is full: a write to it fails after some seconds. Once the program has ended, or has waited longer
than that, the socket is emptied. What a failed write left may not be written again, so nothing comes after what filled it.
"""

import array
import contextlib
import fcntl
import socket
import struct
import subprocess
import termios
import time

# After how many seconds a write fails, and after how many the socket is emptied at the latest.
FAILS, EMPTIED = 4, 6


def fill(device):
    """Fills a socket, and returns how many bytes that took."""
    count = 0
    device.setblocking(False)
    for size in (4096, 1):
        with contextlib.suppress(BlockingIOError):
            while True:
                count += device.send(b"." * size)
    device.setblocking(True)
    return count


def has_read(pipe):
    """Whether all that was written to a pipe was read."""
    left = array.array("i", [0])
    fcntl.ioctl(pipe, termios.FIONREAD, left)
    return left[0] == 0


def check(program):
    reader, device = socket.socketpair()
    held = fill(device)
    device.setsockopt(socket.SOL_SOCKET, socket.SO_SNDTIMEO, struct.pack("ll", FAILS, 0))
    run = subprocess.Popen([program, "session"], stdin=subprocess.PIPE, stdout=device, stderr=subprocess.PIPE)
    device.close()
    run.stdin.write(b"iptables-save\n")
    run.stdin.flush()
    while not has_read(run.stdin) and run.poll() is None:
        time.sleep(0.01)
    with contextlib.suppress(subprocess.TimeoutExpired):
        run.wait(EMPTIED)
    written = b"".join(iter(lambda: reader.recv(65536), b""))
    _, errors = run.communicate()
    assert written[held:] == b""
    assert (run.returncode, errors) == (1, b"iptsim: output failed\n")

"""What the tools here share: free ports, and a proxy that counts the signs and the rises of TCK on their way to a served chip."""
import contextlib
import random
import socket
import threading
import time

LEVELS = bytes.maketrans(b"01234567", b"00001111")
NO_LEVELS = bytes(sign for sign in range(256) if sign not in b"01234567")


def free_port():
    """A port that nobody has, below those that the system hands out, so that no call can connect to itself."""
    while True:
        with contextlib.suppress(OSError), socket.create_server(("127.0.0.1", random.randrange(20000, 32000))) as free:
            return free.getsockname()[1]


def carry(source, sink):
    """Hands the answers on."""
    with contextlib.suppress(OSError):
        while answers := source.recv(65536):
            sink.sendall(answers)


def reach(port):
    """Connects to a server that may still be starting."""
    deadline = time.monotonic() + 60
    while True:
        try:
            return socket.create_connection(("127.0.0.1", port))
        except ConnectionRefusedError:
            if time.monotonic() > deadline:
                raise
            time.sleep(0.01)


class Counted:
    """The signs that came so far, and the rises of TCK among them."""

    def __init__(self):
        self.signs, self.rises, self.level = 0, 0, b"0"

    def take(self, piece):
        levels = self.level + piece.translate(LEVELS, NO_LEVELS)
        self.signs, self.rises, self.level = self.signs + len(piece), self.rises + levels.count(b"01"), levels[-1:]


def count_signs(listener, chip_port, counted=None):
    """Connects a probe to the chip at this port, and counts the signs that the probe sends, and the rises of TCK among them."""
    counted = counted or Counted()
    probe = listener.accept()[0]
    chip = reach(chip_port)
    for stream in (probe, chip):
        stream.setsockopt(socket.IPPROTO_TCP, socket.TCP_NODELAY, 1)
    threading.Thread(target=carry, args=(chip, probe), daemon=True).start()
    with contextlib.suppress(ConnectionResetError, BrokenPipeError):
        while piece := probe.recv(65536):
            counted.take(piece)
            chip.sendall(piece)
    chip.close()
    return counted.signs, counted.rises

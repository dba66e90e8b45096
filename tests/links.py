"""What ends of connections over the loopback do, whatever they say."""
import contextlib
import socket
import struct
import time

HERE = "127.0.0.1"
# How long anything is waited for: much longer than it takes on a busy machine.
SECONDS = 60


def reset(link):
    """Closes a connection so that the other end sees a failure."""
    link.setsockopt(socket.SOL_SOCKET, socket.SO_LINGER, struct.pack("ii", 1, 0))
    link.close()


def say(link, data):
    """Sends bytes, as far as the other end takes them, and returns whether it took all."""
    try:
        link.sendall(data)
    except ConnectionError:
        return False
    return True


def give(link, pieces):
    """Sends pieces, as far as the other end takes them, and returns whether it took all."""
    link.setsockopt(socket.IPPROTO_TCP, socket.TCP_NODELAY, 1)
    for piece, seconds in pieces:
        if not say(link, piece):
            return False
        time.sleep(seconds)
    return True


def pieces_of(link, most):
    """Yields so many bytes in pieces, fewer where the other end has ended."""
    while most and (piece := link.recv(min(most, 1 << 16))):
        most -= len(piece)
        yield piece


def received(link, most):
    """Returns so many bytes, fewer where the other end has ended."""
    return b"".join(pieces_of(link, most))


def take(link, most=1 << 30):
    """Returns so many bytes, fewer where the other end has ended or failed."""
    data = b""
    with contextlib.suppress(ConnectionError):
        for piece in pieces_of(link, most):
            data += piece
    return data


def end_side(link):
    """Ends this side of a connection, where the other end has not gone yet."""
    with contextlib.suppress(OSError):
        link.shutdown(socket.SHUT_WR)

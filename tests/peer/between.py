"""What stands between `ice call` and a server, and does to each connection what is said: hands it on, cuts its reply, or holds its call."""
import socket
import threading

from links import reset

SECONDS = 20
VALIDATE = 14


class Between:
    """Does to the Nth connection what the Nth act says: `("hand on",)`; `("cut", N, is_reset)` ends it once N bytes behind the server's
    validate message were handed on and the server has answered whole, by a reset or not; `("hold", done)` keeps what the client sends,
    calls `done` once that has come, and hands on what the server sends; `("lose", done)` keeps the client's call, calls `done`, and resets the
    connection; `("refuse",)` ends it at once. Beyond them it listens no more."""

    def __init__(self, port, *acts):
        self.target, self.acts, self.count = port, acts, 0
        self.listener = socket.create_server(("127.0.0.1", 0))
        self.port = self.listener.getsockname()[1]
        self.thread = threading.Thread(target=self.run, daemon=True)

    def at(self, words):
        return f"{words}:tcp -h 127.0.0.1 -p {self.port}"

    def __enter__(self):
        self.thread.start()
        return self

    def __exit__(self, *_):
        self.listener.close() if self.count < len(self.acts) else None
        self.thread.join(SECONDS)

    def run(self):
        for act, *words in self.acts:
            try:
                client, _ = self.listener.accept()
            except OSError:
                return
            self.count += 1
            if self.count == len(self.acts):
                self.listener.close()
            client.settimeout(SECONDS)
            with client:
                getattr(self, act.replace(" ", "_"))(client, *words)

    def to_server(self):
        return socket.create_connection(("127.0.0.1", self.target), SECONDS)

    def hand_on(self, client):
        """Copies both ways until both ends have ended."""
        with self.to_server() as server:
            forth = threading.Thread(target=copy, args=(client, server), daemon=True)
            forth.start()
            copy(server, client)
            forth.join(SECONDS)

    def cut(self, client, most, is_reset):
        with self.to_server() as server:
            client.sendall(received(server, VALIDATE))
            request = received(client, VALIDATE)
            server.sendall(request + received(client, int.from_bytes(request[10:], "little") - VALIDATE))
            head = received(server, VALIDATE)
            reply = head + received(server, int.from_bytes(head[10:], "little") - VALIDATE)
            client.sendall(reply[:most])
            end(client, is_reset)

    def hold(self, client, done):
        with self.to_server() as server:
            client.sendall(received(server, VALIDATE))
            request = received(client, VALIDATE)
            received(client, int.from_bytes(request[10:], "little") - VALIDATE)
            done()
            copy(server, client)

    def lose(self, client, done):
        with self.to_server() as server:
            client.sendall(received(server, VALIDATE))
            request = received(client, VALIDATE)
            received(client, int.from_bytes(request[10:], "little") - VALIDATE)
            done()
            end(client, True)

    def refuse(self, client):
        end(client, False)


def end(link, is_reset):
    """Closes a connection. With a reset what was sent is delivered first, as far as the other end reads it at once."""
    reset(link) if is_reset else link.close()


def received(link, length):
    came = b""
    while len(came) < length:
        piece = link.recv(length - len(came))
        if not piece:
            raise ConnectionError("the other end has ended the connection")
        came += piece
    return came


def copy(source, sink):
    """Copies up to the end of what comes, and ends the other one there."""
    try:
        while piece := source.recv(65536):
            sink.sendall(piece)
        sink.shutdown(socket.SHUT_WR)
    except OSError:
        pass

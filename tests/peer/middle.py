"""What goes between one client and a server of Ice, kept."""
import socket
import threading


class Middle:
    """Hands on what goes between one client and a server, and keeps it. What it holds is kept and not handed on."""

    def __init__(self, port):
        self.target, self.sent, self.got = port, bytearray(), bytearray()
        self.holds = False
        self.listener = socket.create_server(("127.0.0.1", 0))
        self.port = self.listener.getsockname()[1]
        self.client = self.server = None
        self.thread = threading.Thread(target=self.run, daemon=True)
        self.thread.start()

    def copy(self, source, sink, kept):
        try:
            while piece := source.recv(4096):
                kept += piece
                if not (self.holds and kept is self.sent):
                    sink.sendall(piece)
            sink.shutdown(socket.SHUT_WR)
        except OSError:
            pass

    def run(self):
        self.client, _ = self.listener.accept()
        self.server = socket.create_connection(("127.0.0.1", self.target))
        back = threading.Thread(target=self.copy, args=(self.server, self.client, self.got), daemon=True)
        back.start()
        self.copy(self.client, self.server, self.sent)
        back.join()

    def cut(self):
        """Ends both connections at once."""
        for end in (self.client, self.server):
            try:
                end.shutdown(socket.SHUT_RDWR)
            except OSError:
                pass  # it has ended by the other one's

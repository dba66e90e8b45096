"""`ice serve` and `ice gate` with the interfaces of office/Office.ice."""
import socket
import subprocess

from offices import FILE


class Listening:
    """A command that listens, in a process of its own."""

    def __init__(self, *words):
        self.process = subprocess.Popen(words, stdout=subprocess.PIPE, stderr=subprocess.PIPE)
        line = self.process.stdout.readline()
        if not line.startswith(b"listening "):
            raise RuntimeError(f"{words[1:]}: {line} {self.process.stderr.read()}")
        self.port = int(line.split()[1])

    def at(self, words):
        return f"{words}:tcp -h 127.0.0.1 -p {self.port}"

    def link(self):
        return socket.create_connection(("127.0.0.1", self.port), 10)

    def ended(self):
        """Waits for its end, and returns what it wrote behind the first line, and its status."""
        out, error = self.process.communicate(timeout=20)
        return self.process.returncode, out, error

    def __enter__(self):
        return self

    def __exit__(self, *_):
        self.process.kill()
        self.process.communicate()


def counted(connections):
    return ["--connections", str(connections)] if connections else []


class Serve(Listening):
    def __init__(self, program, *objects, workers=1, connections=None):
        super().__init__(program, "serve", "--workers", str(workers), *counted(connections), FILE, "127.0.0.1", "0", *objects)


class Gate(Listening):
    """It forwards to the endpoints of a proxy, whose identity does not count."""

    def __init__(self, program, proxy, interface="Desk", file=FILE, retries=1, connections=None):
        super().__init__(program, "gate", "--retries", str(retries), *counted(connections), file, f"::Office::{interface}", "127.0.0.1", "0", proxy)

"""How much memory a process holds at most."""
import os
import time

# How long a process is let be between two looks, in seconds, once it has run as long as the other says.
PAUSE, SHORT = 0.0005, 0.02


def watched(child):
    """Waits for the end of a child, and returns the most MiB that it held.

    What the system tells of it at its end counts what the process held that started it. So its own is looked up while it
    runs: that is the most up to then, and what it takes in its last moments alone is not seen.
    """
    most, begun = 0, time.perf_counter()
    while True:
        with open(f"/proc/{child}/status") as file:
            told = [line.split()[1] for line in file if line.startswith("VmHWM:")]
        most = max(most, *map(int, told)) if told else most
        if os.waitpid(child, os.WNOHANG)[0]:
            return most / 1024
        if time.perf_counter() - begun > SHORT:
            time.sleep(PAUSE)


def most_of(begin, runs):
    """Starts so many runs, and more as long as each has ended before it was seen, and returns the most MiB of them."""
    seen = [watched(begin()) for _ in range(runs)]
    while not max(seen):
        seen.append(watched(begin()))
    return max(seen)

"""Runs of the program in which allocations fail, and what they may come to."""
import dataclasses
import struct
import subprocess

from program import TOP, answer_of

SAMPLE = f"{TOP}/sample"
NO_MEMORY = 9, b"ice: no memory\n"
# The status with which the sanitizer and valgrind end a run in which they found something.
FOUND = 99
FOREVER = 2**63
# The commands that write lines before they are done.
BY_LINES = ("messages", "call", "serve", "gate")


@dataclasses.dataclass(frozen=True)
class Answer:
    status: object
    output: bytes
    error: bytes

    def __str__(self):
        return f"status {self.status}, output {self.output[:60]!r}, error {self.error[:300]!r}"


@dataclasses.dataclass(frozen=True)
class Run:
    """What a run answered, how many allocations it made and how many of these failed, and what its other end saw."""

    answer: Answer
    made: int
    failed: int
    seen: object = None


def sample(name):
    with open(f"{SAMPLE}/{name}", "rb") as file:
        return file.read()


def is_allowed(command, answer, whole):
    """Says whether a command may be answered so where an allocation failed."""
    if answer == whole:
        return True
    begun = answer.output if command in BY_LINES else b""
    is_begun = whole.output.startswith(begun) and begun[-1:] in (b"", b"\n")
    return is_begun and answer == Answer(NO_MEMORY[0], begun, NO_MEMORY[1])


def is_void(answer):
    """Says whether the sanitizer ended a run since it lacked memory itself, as it does where a thread begins."""
    return b"AddressSanitizer: CHECK failed" in answer.error and b"pthread_getattr_np" in answer.error


@dataclasses.dataclass(frozen=True)
class Trial:
    """What a run is given, and the status of the whole one. In a word {here} is the folder of the files that the trial
    has beside those of the sample."""

    name: str
    words: tuple
    data: bytes = b""
    status: int = 0
    files: tuple = ()

    @property
    def command(self):
        return self.words[0]

    def run(self, failing, first, last):
        """Returns a run in which the allocations from the first to the last fail."""
        failing.begin(first, last)
        answer = answer_of(failing.command(self), self.data, SAMPLE, failing.changed)
        return Run(Answer(*answer), *failing.counts())

    def fault(self, run, whole):
        """Returns what a run has that it may not have, by the whole one, or nothing."""
        is_right = is_allowed(self.command, run.answer, whole.answer) if run.failed else run.answer == whole.answer
        return "" if is_right else str(run.answer)


class Failing:
    """A program with the library that lets its allocations fail, and the file in which they are counted."""

    def __init__(self, program, folder):
        self.program, self.folder, self.changed = program, folder, {}
        self.library, self.counted = f"{folder}/failing_allocations.so", f"{folder}/counts"
        source = f"{TOP}/tests/failing_allocations.c"
        subprocess.run(["cc", "-O1", "-Wall", "-shared", "-fPIC", "-o", self.library, source, "-ldl"], check=True)

    def begin(self, first, last):
        """Has the allocations from the first to the last fail in the run that follows."""
        with open(self.counted, "wb") as file:
            file.write(bytes(16))
        self.changed = {
            "LD_PRELOAD": self.library,
            "FAILING_FILE": self.counted,
            "FAILING_FIRST": str(first),
            "FAILING_LAST": str(last),
            "ASAN_OPTIONS": f"detect_leaks=1:abort_on_error=0:exitcode={FOUND}",
        }

    def command(self, trial, **places):
        """Writes the files of a trial, and returns its command, with the places that its words name."""
        for name, data in trial.files:
            with open(f"{self.folder}/{name}", "wb") as file:
                file.write(data)
        return [self.program, *(word_at(it, {"here": self.folder, **places}) for it in trial.words)]

    def counts(self):
        """Returns how many allocations the run before made, and how many of them failed."""
        with open(self.counted, "rb") as file:
            return struct.unpack("=QQ", file.read())


class Searched(Failing):
    """The program under valgrind, where none of its allocations fails."""

    def __init__(self, program, folder):
        self.program, self.folder, self.changed = program, folder, {}

    def begin(self, first, last):
        self.changed = {}

    def command(self, trial, **places):
        words = super().command(trial, **places)
        return ["valgrind", "-q", "--leak-check=full", f"--error-exitcode={FOUND}", *words]

    def counts(self):
        return 0, 0


def word_at(word, places):
    for name, place in places.items():
        word = word.replace(f"{{{name}}}", str(place))
    return word

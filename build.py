#!/usr/bin/env python3
"""Proves and builds the program, and then runs it. The launcher `ice` calls this where the program is missing, or older
than one of its sources.

usage: build.py run WORD..    builds the program, and becomes it with these words
       build.py take FILE     notes that the program that is there was built of the sources as they stood at FILE's time

The crates that the program stands on are proved side by side, and no others. Each has a line on standard error as it
ends; on a terminal it is the last one, written anew. What was interrupted goes on where it was. A second call, and one
that finds `rt ci` at work in this checkout, waits and says so; a program that `rt ci` built of these sources is taken as
it is. Status 70 says that the program could not be built; the whole log of that is crates/ice/out/launcher.log.
"""
import contextlib
import fcntl
import os
import re
import select
import shutil
import signal
import subprocess
import sys
import tempfile
import time

# How the crates are proved, `all` or `ci`. `all`: by `rt all check` here, each over what earlier checks of it kept. `ci`: by `rt ci` on
# a copy, each from nothing or taken from what any `rt ci` on this machine proved and kept; nothing is kept for a user who may not write
# beside the toolchain.
WAY = "ci"
# What a check takes of the memory, in bytes.
OF_A_CHECK = 2 * 10**9
# The lines of a log that are shown.
SHOWN = 30
NOT_BUILT = 70

TOP = os.path.dirname(os.path.realpath(__file__))
CRATE = f"{TOP}/crates/ice"
PROGRAM, STAMP, LOG = (f"{CRATE}/out/{it}" for it in ("ice", "launcher.stamp", "launcher.log"))
# What rt says of a crate that has ended: under `rt all` the head of its lines, under `rt ci` its verdict.
ENDED = {"all": re.compile(r"== (\w+)$"), "ci": re.compile(r"rt: (\w+) (?:proved$|NOT PROVED|is kept: )")}
PROVED = re.compile(r"rt: ice (?:proved$|is kept: )")
FAILED = re.compile(r"^(?:rt: )?(\w+)(?:: failed \(-?\d+\)| NOT PROVED)$", re.MULTILINE)


def tell(text, end="\n"):
    """Writes to standard error, where there is one."""
    with contextlib.suppress(OSError):
        if sys.stderr:
            print(text, end=end, file=sys.stderr, flush=True)


def stop(why):
    tell(f"ice: {why}")
    sys.exit(NOT_BUILT)


# The crates


def listed_crates():
    """Returns what each crate of crates.txt stands on, crates of the repository and of the toolchain, in the file's order."""
    listed = {}
    with open(f"{TOP}/crates.txt", encoding="utf-8") as file:
        for line in file:
            name, colon, uses = line.partition("#")[0].partition(":")
            if colon and name.strip():
                listed[name.split()[0]] = uses.replace(",", " ").split()
    return listed


def crates_below(name, listed, found=None):
    """Returns a crate and those of the repository that it stands on, however far below."""
    found = {} if found is None else found
    if name not in found:
        found[name] = True
        for it in listed[name]:
            if it in listed:
                crates_below(it, listed, found)
    return list(found)


def lowest_of(crates):
    """Returns the crate that most of the others stand on. It is proved before them, by as many processors as there are: of crates that can
    begin side by side, `rt ci` gives each one."""
    listed = listed_crates()
    above = [it for crate in crates for it in crates_below(crate, listed)]
    return max(crates, key=above.count)


def crates_of_program():
    listed = listed_crates() if os.path.isfile(f"{TOP}/crates.txt") else {}
    if "ice" not in listed:
        stop(f"{TOP}/crates.txt lists no crate ice to build")
    crates = crates_below("ice", listed)
    for it in crates:
        if not os.path.isdir(f"{TOP}/crates/{it}"):
            stop(f"no crate to build: {TOP}/crates/{it}")
    return crates


def changed_last(crates):
    """Returns the time of the last change of a file of these crates, or of crates.txt, in nanoseconds."""
    files = [f"{TOP}/crates.txt"]
    for crate in crates:
        for folder, folders, names in os.walk(f"{TOP}/crates/{crate}"):
            folders[:] = [it for it in folders if it != "out"]
            files += [f"{folder}/{it}" for it in names]
    return max(os.lstat(it).st_mtime_ns for it in files)


# The stamp


def write_stamp(crates, nanoseconds):
    """Notes that the program was built of the sources of these crates as they stood at that time."""
    with open(f"{STAMP}.new", "w", encoding="utf-8") as file:
        file.writelines(f"{it}\n" for it in crates)
    os.utime(f"{STAMP}.new", ns=(nanoseconds, nanoseconds))
    os.replace(f"{STAMP}.new", STAMP)


def lock_of_gate():
    """Returns the file that `rt ci` opens anew and locks when it begins in this checkout, if there is one."""
    git = f"{TOP}/.git"
    with contextlib.suppress(OSError):
        if os.path.isfile(git):
            with open(git, encoding="utf-8") as file:
                git = os.path.join(TOP, file.read().strip().removeprefix("gitdir: "))
        return open(f"{git}/rt-ci.lock", "rb")
    return None


def is_taken_from_gate(crates):
    """Waits for an `rt ci` that runs in this checkout. Returns whether it, or an earlier one, left a program of the sources as they
    stand, and writes the stamp then. What `rt ci` leaves of a library fits no other command of rt."""
    lock = lock_of_gate()
    if not lock:
        return False
    with lock:
        waits_for(lock, fcntl.LOCK_SH, "rt ci runs in this checkout: waiting for it, to take its program")
        # Of the two programs that it makes, `ice` comes first; what wrote that anew later was something else.
        order = [lock.fileno(), PROGRAM, f"{PROGRAM}.by-rattle"]
        if not all(os.path.exists(it) for it in order[1:]):
            return False
        begun, built, last = (os.stat(it).st_mtime_ns for it in order)
        is_its = changed_last(crates) < begun < built <= last
        if is_its:
            write_stamp(crates, begun)
    return is_its


def waits_for(file, kind, why):
    """Locks a file. Where another process holds it, says why and waits, and returns True."""
    try:
        fcntl.flock(file, kind | fcntl.LOCK_NB)
        return False
    except BlockingIOError:
        tell(f"ice: {why}")
        fcntl.flock(file, kind)
        return True
    except OSError as error:
        stop(f"no lock to build under: {error.strerror}")


# Processors and memory


def number_in(path, pattern):
    """Returns the number in a file that follows the pattern, None where there is none."""
    with contextlib.suppress(OSError):
        with open(path, encoding="utf-8") as file:
            found = re.search(pattern + r"(\d+)", file.read())
            return int(found[1]) if found else None
    return None


def processors():
    """Returns how many processors there are to use: those of this process, or fewer by the quota of its control group."""
    found = len(os.sched_getaffinity(0))
    quota, period = number_in("/sys/fs/cgroup/cpu.max", "^"), number_in("/sys/fs/cgroup/cpu.max", "^\\d+ ")
    return max(1, min(found, quota // period)) if quota and period else found


def free_memory():
    """Returns the free memory in bytes, by the limit of the control group too."""
    free = 1024 * (number_in("/proc/meminfo", r"MemAvailable:\s+") or 0)
    most, held = number_in("/sys/fs/cgroup/memory.max", "^"), number_in("/sys/fs/cgroup/memory.stat", r"\banon ")
    return min(free, most - held) if most and held else free


def checks_at_once():
    return max(1, min(processors(), free_memory() // OF_A_CHECK))


# Building


class Ended(BaseException):
    """A signal that asks this process to end."""


class Progress:
    """What is told of the crates as they end."""

    def __init__(self, crates):
        self.left, self.number, self.last = set(crates), len(crates), ""
        self.begun, self.width = time.monotonic(), 0
        self.is_terminal = sys.stderr is not None and sys.stderr.isatty()

    def time(self):
        seconds = int(time.monotonic() - self.begun)
        hours, minutes = divmod(seconds // 60, 60)
        return f"{hours}:{minutes:02}:{seconds % 60:02}" if hours else f"{minutes}:{seconds % 60:02}"

    def end(self, crate):
        """Tells that a crate has ended, once."""
        if crate in self.left:
            self.left.remove(crate)
            self.last = crate
            self.show()
            if not self.is_terminal:
                tell(self.line())

    def line(self):
        done = self.number - len(self.left)
        return f"ice: {done} of {self.number} crates, {self.time()}{': ' if self.last else ''}{self.last}"

    def show(self):
        """On a terminal, writes the last line anew."""
        if self.is_terminal:
            line = self.line()
            tell("\r" + line.ljust(self.width), end="")
            self.width = len(line)

    def close(self):
        """Leaves the last line as it is."""
        if self.is_terminal and self.width:
            tell("")
        self.width = 0


def lines_of(stream, idle):
    """Yields the lines of a pipe, and calls `idle` each second between them."""
    rest = b""
    while True:
        if not select.select([stream], [], [], 1)[0]:
            idle()
            continue
        data = os.read(stream.fileno(), 1 << 16)
        *lines, rest = (rest + data).split(b"\n")
        yield from (it.decode(errors="replace") for it in lines)
        if not data:
            if rest:
                yield rest.decode(errors="replace")
            return


def run_rt(words, folder, progress, log):
    """Runs rt with its output in the log, tells each crate that ends, and returns its status. As soon as `rt ci` says that the program is
    proved, or that a crate is not, that is all there is to know: rt is ended, with status 0 or 1. It has a session of its own, in which
    no Ctrl-C reaches it, and is ended where this process is."""
    how = {"stdin": subprocess.DEVNULL, "stdout": subprocess.PIPE, "stderr": subprocess.STDOUT, "start_new_session": True}
    child = subprocess.Popen(["rt", *words], cwd=folder, **how)
    try:
        for line in lines_of(child.stdout, progress.show):
            print(line, file=log, flush=True)
            ended = ENDED[WAY].match(line)
            if ended:
                progress.end(ended[1])
                if PROVED.match(line) or line.endswith("NOT PROVED"):
                    return 0 if PROVED.match(line) else 1
            elif line.startswith("rt: ") and "waiting for " in line:
                progress.close()
                tell(f"ice: {line}")
        return child.wait()
    finally:
        if child.poll() is None:
            child.terminate()
            child.wait()


def build_by_all(_, progress, log):
    """Proves over what earlier checks kept in crates/*/out, and keeps what it proves there."""
    status = run_rt(["all", "check", "--jobs", str(checks_at_once())], CRATE, progress, log)
    return status or run_rt(["run", "--", "--version"], CRATE, progress, log)


def build_by_ci(crates, progress, log):
    """Proves a copy without must-fail edits, and keeps what it proves beside the toolchain, where `rt ci` finds it in any checkout.
    Tests are proved where processors are free, until the program is."""
    folders = [f"{TOP}/crates/{it}" for it in crates]

    def left_out(folder, names):
        """Links too, which rt takes for none of its files and editors leave while they change one."""
        return [it for it in names if folder in folders and it in ("out", "must-fail") or os.path.islink(f"{folder}/{it}")]

    # rt removes what is left of a folder of this name, where this process was killed.
    room = tempfile.mkdtemp(prefix=f"rt-copy-{os.getpid()}-")
    try:
        for it in crates:
            shutil.copytree(f"{TOP}/crates/{it}", f"{room}/crates/{it}", ignore=left_out)
        with open(f"{TOP}/crates.txt", encoding="utf-8") as whole, open(f"{room}/crates.txt", "w", encoding="utf-8") as part:
            part.writelines(it for it in whole if it.partition(":")[0].split()[:1] in [[name] for name in crates])
        if os.path.exists(f"{TOP}/HANDLES"):
            shutil.copyfile(f"{TOP}/HANDLES", f"{room}/HANDLES")
        # rt ci wants the top of a repository.
        os.mkdir(f"{room}/.git")
        status = run_rt(["ci", lowest_of(crates)], room, progress, log) or run_rt(["ci"], room, progress, log)
        if not status:
            shutil.copy(f"{room}/crates/ice/out/ice", f"{PROGRAM}.new")
            os.replace(f"{PROGRAM}.new", PROGRAM)
        return status
    finally:
        shutil.rmtree(room, ignore_errors=True)


def told_of_failure(log):
    """Returns the end of what rt said of the first crate that failed, else of all that it said."""
    with open(log, encoding="utf-8") as file:
        said = file.read()
    failed = FAILED.search(said)
    own = failed and re.search(rf"^== {failed[1]}\n(.*?)(?=^== |\Z)", said, re.MULTILINE | re.DOTALL)
    return (own[1] if own else said).splitlines()[-SHOWN:]


def build(crates):
    """Proves and builds the program, or tells why not and ends with status 70."""
    if not shutil.which("rt"):
        stop("no rt on PATH to build the program with")
    if WAY == "ci":
        # So rt keeps other commands of its own out of a folder. Held until this process ends; under `all` rt does it.
        waits_for(os.open(CRATE, os.O_RDONLY), fcntl.LOCK_EX, "rt is at work in crates/ice: waiting for it")
    os.makedirs(f"{CRATE}/out", exist_ok=True)
    # Gone while the program is written, so that nobody runs a part of it.
    with contextlib.suppress(FileNotFoundError):
        os.remove(STAMP)
    begun = time.time_ns()
    tell(f"ice: proving and building the program, {len(crates)} crates; sample/look shows it in two minutes, unproved")
    progress = Progress(crates)
    try:
        with open(LOG, "w", encoding="utf-8") as log:
            status = {"all": build_by_all, "ci": build_by_ci}[WAY](crates, progress, log)
    finally:
        progress.close()
    if status or not os.path.isfile(PROGRAM):
        for it in told_of_failure(LOG):
            tell(it)
        stop(f"the program could not be built; the whole log is {LOG}")
    write_stamp(crates, begun)
    tell(f"ice: the program is proved and built, {progress.time()}")


# The two commands


def end_by(number, _):
    raise Ended(number)


def become(program, words):
    # Python has made these two ignored, which a program inherits.
    for it in (signal.SIGPIPE, signal.SIGXFSZ):
        signal.signal(it, signal.SIG_DFL)
    os.execv(program, [program, *words])


def is_built_here(crates):
    """Builds the program, unless `rt ci` has. Returns False where another process was at it meanwhile."""
    # rt locks the crates' folders, so the lock is on this file.
    with open(f"{TOP}/ice", "rb") as lock:
        if waits_for(lock, fcntl.LOCK_EX, "another call is building the program: waiting for it"):
            return False
        if not is_taken_from_gate(crates):
            build(crates)
        return True


def run(words):
    for it in (signal.SIGINT, signal.SIGTERM, signal.SIGHUP):
        if signal.getsignal(it) != signal.SIG_IGN:
            signal.signal(it, end_by)
    try:
        program = PROGRAM if is_built_here(crates_of_program()) else f"{TOP}/ice"
    except Ended as ended:
        number = ended.args[0]
        tell(f"ice: ended by {signal.Signals(number).name}; the next call goes on from here")
        signal.signal(number, signal.SIG_DFL)
        os.kill(os.getpid(), number)
    except OSError as error:
        stop(f"the program could not be built: {error}")
    become(program, words)


def main(words):
    if words[:1] == ["run"]:
        run(words[1:])
    elif words[:1] == ["take"] and len(words) == 2:
        write_stamp(crates_of_program(), os.stat(words[1]).st_mtime_ns)
    else:
        sys.exit(__doc__)


if __name__ == "__main__":
    main(sys.argv[1:])

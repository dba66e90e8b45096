"""The program that tests and benchmarks try."""
import os
import resource
import signal
import subprocess

TOP = os.path.dirname(os.path.dirname(os.path.realpath(__file__)))
# The launcher's status where it could not build the program.
NOT_BUILT = 70
SECONDS, WAITED = 20, 600


def built_program():
    """Returns the program that the environment variable ICE names, else the repository's own, built by its launcher. None
    where there is no such program."""
    program = os.environ.get("ICE")
    if not program:
        ran = subprocess.run([f"{TOP}/ice", "--version"], stdin=subprocess.DEVNULL, stdout=subprocess.DEVNULL)
        program = f"{TOP}/crates/ice/out/ice" if ran.returncode != NOT_BUILT else ""
    return os.path.abspath(program) if os.path.exists(program) else None


def answer_of(command, data, folder, changed):
    """Returns the status, standard output and standard error of a command, on this input, in this folder and in an
    environment that is so changed. The status is a text where it takes SECONDS of processor time, or has not ended after
    WAITED seconds: on a busy machine a run may wait long."""

    def limited():
        resource.setrlimit(resource.RLIMIT_CPU, (SECONDS, SECONDS))

    given = {"input": data, "capture_output": True, "cwd": folder, "timeout": WAITED, "preexec_fn": limited}
    try:
        ran = subprocess.run(command, env={**os.environ, **changed}, **given)
    except subprocess.TimeoutExpired:
        return "none in time", b"", b""
    is_over = ran.returncode in (-signal.SIGXCPU, -signal.SIGKILL)
    return "none in time" if is_over else ran.returncode, ran.stdout, ran.stderr


def commands_of(program):
    """Returns the commands that a program lists in its help."""
    told = subprocess.run([program, "--help"], stdin=subprocess.DEVNULL, capture_output=True, text=True).stdout
    return {it.split()[0] for it in told.splitlines() if it[:2] == "  " and it[2:3].islower()}


def has_sanitizer(program):
    """Says whether a program has the address sanitizer, which holds memory of its own."""
    with open(program, "rb") as file:
        return b"__asan_init" in file.read()


def memory_of(process, what="VmRSS"):
    """Returns the KiB of memory that a process holds, or the most that it has held (VmHWM)."""
    with open(f"/proc/{process.pid}/status", encoding="ascii") as file:
        return next(int(line.split()[1]) for line in file if line.startswith(f"{what}:"))


def changed_last():
    """Returns the time of the last change of a source of the crates."""
    times = [os.path.getmtime(f"{TOP}/crates.txt")]
    for folder, folders, files in os.walk(f"{TOP}/crates"):
        folders[:] = [it for it in folders if it != "out"]
        times += [os.path.getmtime(f"{folder}/{it}") for it in files]
    return max(times)


def built_of(crate, words=(), input_=b""):
    """Returns the program of a crate, built where it is missing or older than a source. None where it cannot be. What builds it also
    runs it, on these words and this input."""
    folder = f"{TOP}/crates/{crate}"
    program = f"{folder}/out/{crate}"
    if not os.path.exists(program) or os.path.getmtime(program) < changed_last():
        ran = subprocess.run(["rt", "run", "--", *words], cwd=folder, input=input_, capture_output=True)
        if ran.returncode != 0:
            return None
    return program if os.path.exists(program) else None


def built_workbench():
    """Returns the program that reads Slice files and exceptions: what the environment variable WORKBENCH names, else the repository's
    own. None where there is no such program."""
    program = os.environ.get("WORKBENCH") or built_of("workbench", ["slice"])
    return os.path.abspath(program) if program and os.path.exists(program) else None

"""Kills a program at a call of the system, whichever it is: before the call, or behind it. And says which calls it
makes, by their numbers on x86-64."""
import ctypes
import os
import subprocess

# Requests of ptrace: the child is traced by its parent; it runs up to the next call or its end.
TRACE_ME, READ_REGISTER, NEXT_CALL = 0, 3, 24
# Where the number of a stopped child's call is: the register orig_rax.
CALL_NUMBER = 15 * 8
NAMES = {1: "write", 74: "fsync", 82: "rename", 86: "link", 87: "unlink"}
LIBC = ctypes.CDLL(None, use_errno=True)
LIBC.ptrace.argtypes = [ctypes.c_long, ctypes.c_long, ctypes.c_void_p, ctypes.c_void_p]
LIBC.ptrace.restype = ctypes.c_long


def traced(request, process=0, place=None):
    result = LIBC.ptrace(request, process, place, None)
    if result < 0:
        raise OSError(ctypes.get_errno(), "ptrace")
    return result


def stops(words):
    """A program that is stopped as it begins, at each entry of a call and at each return; and whether it is over."""
    child = subprocess.Popen(words, stdin=subprocess.DEVNULL, stdout=subprocess.PIPE, stderr=subprocess.PIPE,
                             preexec_fn=lambda: traced(TRACE_ME))
    _, status = os.waitpid(child.pid, 0)
    while os.WIFSTOPPED(status):
        yield child, False
        traced(NEXT_CALL, child.pid)
        _, status = os.waitpid(child.pid, 0)
    yield child, True


def killed_at(number, words):
    """Runs a program up to its number-th stop, and kills it there. What it printed, and whether it ended before."""
    for at, (child, is_over) in enumerate(stops(words)):
        if at == number and not is_over:
            child.kill()
            break
    said, _ = child.communicate()
    return said, is_over


def calls(words):
    """The names of the calls that a program makes, of those in NAMES."""
    numbers = [traced(READ_REGISTER, child.pid, CALL_NUMBER) for child, is_over in stops(words) if not is_over]
    return [NAMES[number] for number in numbers[1::2] if number in NAMES]


def each_kill(words, before):
    """What a program printed that is killed at each stop in turn, up to the run that isn't. `before` comes before each
    run."""
    for number in range(10_000):
        before()
        said, is_over = killed_at(number, words)
        yield number, said, is_over
        if is_over:
            return

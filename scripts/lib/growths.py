"""Runs a program on given bytes, and refuses growths of its memory.

A growth is a call of `rattle_alloc` or `rattle_realloc`, through which every program of the toolchain takes its memory.
The program is run as a debugger runs one: at both functions stands a breakpoint, in the place of a first instruction that
does nothing. Each call is counted there, and one that is to be refused is made to ask for 2^62 bytes, so that it is the C
library that refuses it. Nothing of the program's files is changed. It works on Linux on x86-64 alone, as the toolchain does.

Called by itself it ends with 0 where a process can be traced so, and with 3 where none can.
"""
import ctypes
import os
import resource
import signal
import struct
import sys
from collections import namedtuple

# The status, or minus the signal that ended it; what stands on standard output and on standard error; how many growths were seen, and how
# many of them refused. Behind the last one that was to be refused none is seen. Both are None where growths aren't counted.
Ran = namedtuple("Ran", "status out said growths refused")

NO_OPERATION = bytes.fromhex("f30f1efa")
BREAKPOINT = bytes.fromhex("cc909090")
TOO_MANY_BYTES = 1 << 62
SECONDS = 120

TRACE_ME, PEEK_REGISTER, POKE_REGISTER, CONTINUE = 0, 3, 6, 7
RDX, RDI, RIP = 96, 112, 128
C = ctypes.CDLL(None, use_errno=True)
C.ptrace.restype = ctypes.c_long
C.ptrace.argtypes = [ctypes.c_long, ctypes.c_int, ctypes.c_void_p, ctypes.c_void_p]


def trace(request, process, at=0, value=0):
    found = C.ptrace(request, process, at, value)
    if found == -1 and request != PEEK_REGISTER:
        raise OSError(ctypes.get_errno(), "ptrace: is a debugger allowed here?")
    return found


def symbols(path, names):
    """The places of functions of a program, from its start, and whether it is loaded anywhere, as most are."""
    with open(path, "rb") as file:
        data = file.read()
    if data[:6] != b"\x7fELF\x02\x01":
        raise SystemExit(f"{path} is no program for Linux on x86-64")
    is_anywhere = struct.unpack_from("<H", data, 16)[0] == 3
    sections, size, count = *struct.unpack_from("<Q", data, 40), *struct.unpack_from("<HH", data, 58)
    heads = [struct.unpack_from("<IIQQQQIIQQ", data, sections + n * size) for n in range(count)]
    found = {}
    for head in heads:
        if head[1] != 2:
            continue
        text = heads[head[6]][4]
        for at in range(head[4], head[4] + head[5], 24):
            name, _, _, _, place, _ = struct.unpack_from("<IBBHQQ", data, at)
            word = data[text + name : data.index(b"\0", text + name)].decode(errors="replace")
            if word in names:
                found[word] = place
    return found, is_anywhere


def can_trace():
    """Whether a process can be traced here, and its memory changed."""
    process = os.fork()
    if process == 0:
        try:
            trace(TRACE_ME, 0)
            os.kill(os.getpid(), signal.SIGSTOP)
        except OSError:
            pass
        finally:
            os._exit(0)
    _, status = os.waitpid(process, os.WUNTRACED)
    if not os.WIFSTOPPED(status):
        return False
    try:
        trace(POKE_REGISTER, process, RDI, trace(PEEK_REGISTER, process, RDI))
        with open(f"/proc/{process}/mem", "r+b", buffering=0):
            return True
    except OSError:
        return False
    finally:
        os.kill(process, signal.SIGKILL)
        os.waitpid(process, 0)


def bytes_file(data=b""):
    file = os.memfd_create("bytes")
    os.write(file, data) if data else None
    os.lseek(file, 0, os.SEEK_SET)
    return file


def content(file):
    size = os.fstat(file).st_size
    data = os.pread(file, size, 0)
    os.close(file)
    return data


class Program:
    """A program that was built with the toolchain."""

    def __init__(self, path):
        self.path = os.path.abspath(path)
        if not os.access(self.path, os.X_OK):
            raise SystemExit(f"{path} can't be run")
        found, self.is_anywhere = symbols(self.path, ("rattle_alloc", "rattle_realloc"))
        if len(found) != 2:
            raise SystemExit(f"{path} has no symbols rattle_alloc and rattle_realloc: it was not built with the toolchain, or was stripped")
        self.alloc, self.realloc = found["rattle_alloc"], found["rattle_realloc"]

    def run(self, words, given=b"", refused=(), memory=None, stdin=None, counted=True):
        """Runs it on bytes, or on an open file, with the growths of these numbers refused, the first being 1, and at most so many bytes of
        address space. `refused` is a tuple or a range. Where nothing is refused and growths aren't counted it runs at its own speed."""
        files = bytes_file(given) if stdin is None else stdin, bytes_file(), bytes_file()
        process = os.fork()
        if process == 0:
            self._begin(words, files, memory, counted)
        seen, met, status = self._follow(process, refused) if counted else (None, None, os.waitpid(process, 0)[1])
        if stdin is None:
            os.close(files[0])
        code = -os.WTERMSIG(status) if os.WIFSIGNALED(status) else os.WEXITSTATUS(status)
        return Ran(code, content(files[1]), content(files[2]), seen, met)

    def _begin(self, words, files, memory, counted):
        try:
            for number, file in enumerate(files):
                os.dup2(file, number)
            resource.setrlimit(resource.RLIMIT_CPU, (SECONDS, SECONDS))
            resource.setrlimit(resource.RLIMIT_CORE, (0, 0))
            if memory is not None:
                resource.setrlimit(resource.RLIMIT_AS, (memory, memory))
            if counted:
                trace(TRACE_ME, 0)
            os.execve(self.path, [self.path, *words], {})
        finally:
            os._exit(127)

    def _put(self, process, code):
        base = 0
        if self.is_anywhere:
            with open(f"/proc/{process}/maps") as file:
                base = next(int(line.split("-")[0], 16) for line in file if line.rstrip().endswith(self.path))
        with open(f"/proc/{process}/mem", "r+b", buffering=0) as file:
            for place in (self.alloc, self.realloc):
                file.seek(base + place)
                if file.read(4) not in (NO_OPERATION, BREAKPOINT):
                    raise SystemExit(f"{self.path}: its functions for memory begin otherwise than those that this script knows")
                file.seek(base + place)
                file.write(code)
        return base

    def _follow(self, process, refused):
        """Counts the growths of a program that has just begun, and refuses some. Answers how many it saw and refused, and the program's end."""
        _, status = os.waitpid(process, 0)
        if not os.WIFSTOPPED(status):
            return 0, 0, status
        base = self._put(process, BREAKPOINT)
        last = refused[-1] if refused else None
        seen = met = passed_on = 0
        while True:
            trace(CONTINUE, process, 0, passed_on)
            _, status = os.waitpid(process, 0)
            if not os.WIFSTOPPED(status):
                return seen, met, status
            passed_on = os.WSTOPSIG(status)
            if passed_on != signal.SIGTRAP:
                continue
            passed_on = 0
            seen += 1
            if seen in refused:
                met += 1
                place = trace(PEEK_REGISTER, process, RIP) - 1 - base
                trace(POKE_REGISTER, process, RDI if place == self.alloc else RDX, TOO_MANY_BYTES)
            if seen == last:
                self._put(process, NO_OPERATION)


if __name__ == "__main__":
    sys.exit(0 if can_trace() else 3)

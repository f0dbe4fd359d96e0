"""Runs a program call by call, by `ptrace`: each call of the system is shown before it is made, and can fail, be cut short, or be the
program's last. For Linux on x86-64; elsewhere `can_follow` says no."""

import ctypes
import os
import platform
import signal
import tempfile

LIBC = ctypes.CDLL(None, use_errno=True)
LIBC.ptrace.argtypes = [ctypes.c_long, ctypes.c_long, ctypes.c_void_p, ctypes.c_void_p]
LIBC.ptrace.restype = ctypes.c_long
TRACEME, CONT_TO_CALL, GETREGS, SETREGS, SETOPTIONS = 0, 24, 12, 13, 0x4200
MARK_CALLS, END_WITH_US = 1, 0x100000
RESULT, NUMBER = 10, 15
ARGUMENTS = [14, 13, 12, 7, 9, 8]
NO_CALL = 2**64 - 1

NAMES = {
    0: "read", 1: "write", 2: "open", 3: "close", 4: "stat", 5: "fstat", 6: "lstat", 8: "lseek", 9: "mmap", 17: "pread", 18: "pwrite", 19: "readv",
    20: "writev", 40: "sendfile", 72: "fcntl", 73: "flock", 74: "fsync", 75: "fdatasync", 76: "truncate", 77: "ftruncate", 82: "rename", 83: "mkdir",
    84: "rmdir", 85: "creat", 86: "link", 87: "unlink", 88: "symlink", 90: "chmod", 91: "fchmod", 162: "sync", 231: "exit", 257: "openat",
    258: "mkdirat", 262: "statat", 263: "unlinkat", 264: "renameat", 265: "linkat", 266: "symlinkat", 268: "fchmodat", 295: "preadv", 296: "pwritev",
    316: "renameat2", 326: "copy_file_range", 332: "statx", 452: "fchmodat2",
}
FIRST_PATH = {
    "open": 0, "stat": 0, "lstat": 0, "truncate": 0, "rename": 0, "mkdir": 0, "rmdir": 0, "creat": 0, "link": 0, "unlink": 0, "symlink": 0, "chmod": 0,
    "openat": 1, "mkdirat": 1, "statat": 1, "unlinkat": 1, "renameat": 1, "linkat": 1, "symlinkat": 0, "fchmodat": 1, "renameat2": 1, "statx": 1,
    "fchmodat2": 1,
}
SECOND_PATH = {"rename": 1, "link": 1, "renameat": 3, "linkat": 3, "renameat2": 3}
ON_FILE = {
    "read", "write", "close", "fstat", "lseek", "pread", "pwrite", "readv", "writev", "fcntl", "flock", "fsync", "fdatasync", "ftruncate", "fchmod",
    "preadv", "pwritev",
}
READS, WRITES = {"read", "pread"}, {"write", "pwrite"}
ALL_WRITES = WRITES | {"writev", "pwritev", "ftruncate", "truncate", "copy_file_range", "sendfile"}
RENAMES, OPENS = {"rename", "renameat", "renameat2"}, {"open", "openat", "creat"}
UNLINKS = {"unlink", "unlinkat"}
SYNCS = {"fsync", "fdatasync", "sync"}


class Call:
    """A call that the program is about to make."""

    def __init__(self, process, registers):
        self.process = process
        self.name = NAMES.get(registers[NUMBER], "")
        self.arguments = [registers[at] for at in ARGUMENTS]

    def text(self, at):
        """The bytes up to a zero byte at an address of the program."""
        memory = os.open(f"/proc/{self.process}/mem", os.O_RDONLY)
        try:
            found = b""
            while b"\0" not in found:
                place = at + len(found)
                found += os.pread(memory, 256 - place % 256, place)
            return found.split(b"\0")[0]
        finally:
            os.close(memory)

    def absolute(self, at):
        path = self.text(at)
        return path if path.startswith(b"/") else os.path.join(os.fsencode(os.readlink(f"/proc/{self.process}/cwd")), path)

    @property
    def path(self):
        """The file that it is about, by its name or by what is open, or nothing."""
        if self.name in FIRST_PATH:
            where = self.arguments[FIRST_PATH[self.name]]
            named = self.absolute(where) if where else b""
            # (a call by number with an empty name is about what is open)
            if named and (self.name not in ("statat", "statx") or self.text(where)):
                return named
        if self.name in ON_FILE or self.name in ("statat", "statx"):
            try:
                return os.fsencode(os.readlink(f"/proc/{self.process}/fd/{self.arguments[0] & 0xFFFFFFFF}"))
            except OSError:
                return b""
        return b""

    @property
    def new_path(self):
        """The second name of a renaming or a link."""
        return self.absolute(self.arguments[SECOND_PATH[self.name]])

    @property
    def is_stream(self):
        """It reads or writes a standard stream."""
        return self.name in ON_FILE and self.arguments[0] & 0xFFFFFFFF < 3

    @property
    def asks_to_write(self):
        """It opens a file for writing."""
        flags = {"open": 1, "openat": 2}.get(self.name)
        return self.name == "creat" or (flags is not None and self.arguments[flags] & (os.O_WRONLY | os.O_RDWR | os.O_CREAT | os.O_TRUNC) != 0)

    @property
    def changes(self):
        """It may change a file or a folder, or puts one onto the disk."""
        if self.is_stream:
            return False
        is_change = self.name in ALL_WRITES | RENAMES | UNLINKS | SYNCS | {"mkdir", "mkdirat", "link", "linkat", "symlink", "symlinkat"}
        return is_change or self.name in {"chmod", "fchmod", "fchmodat", "fchmodat2"} or self.asks_to_write


class End:
    """The program ends by a signal in the place of the call."""

    def __init__(self, number=signal.SIGKILL):
        self.number = number


class Answer:
    """The call isn't made, and answers this; an error is its number below zero."""

    def __init__(self, result):
        self.result = result


class Only:
    """Of so many bytes a read or a write takes these alone."""

    def __init__(self, count):
        self.count = count


class Followed:
    """What a program that was followed told; a status below zero is that of a signal."""

    def __init__(self, status, out, err):
        self.status, self.out, self.err = status, out, err


class TooLong(Exception):
    pass


def ring(number, frame):
    raise TooLong("it takes too long")


def become(words, stdin, out, err):
    """What the child does."""
    try:
        for number, stream in enumerate((stdin, out, err)):
            os.dup2(stream.fileno(), number)
        for number in (signal.SIGPIPE, signal.SIGXFSZ):
            signal.signal(number, signal.SIG_DFL)
        if LIBC.ptrace(TRACEME, 0, None, None) == 0:
            os.execv(words[0], words)
    finally:
        os._exit(99)


def change(registers, told):
    """Makes the call another one, and answers what it has to answer, if that is known."""
    if isinstance(told, Only):
        registers[ARGUMENTS[2]] = told.count
        return None
    registers[NUMBER] = NO_CALL
    return told.result if isinstance(told, Answer) else 0


def steps(child, watch):
    """Follows the child to its end, and answers its status."""
    registers = (ctypes.c_ulonglong * 27)()
    is_entry, result = True, None
    while True:
        _, status = os.waitpid(child, 0)
        if os.WIFEXITED(status):
            return os.WEXITSTATUS(status)
        if os.WIFSIGNALED(status):
            return -os.WTERMSIG(status)
        number, signaled = os.WSTOPSIG(status), 0
        if number == signal.SIGTRAP | 0x80:
            LIBC.ptrace(GETREGS, child, None, registers)
            told = watch(Call(child, registers)) if is_entry and registers[NUMBER] in NAMES else None
            if told is not None:
                result = change(registers, told)
                LIBC.ptrace(SETREGS, child, None, registers)
                if isinstance(told, End):
                    os.kill(child, told.number)
            elif not is_entry and result is not None:
                registers[RESULT] = result % 2**64
                LIBC.ptrace(SETREGS, child, None, registers)
                result = None
            is_entry = not is_entry
        elif number == signal.SIGTRAP:
            LIBC.ptrace(SETOPTIONS, child, None, MARK_CALLS | END_WITH_US)
        else:
            signaled = number
        LIBC.ptrace(CONT_TO_CALL, child, None, signaled)


def follow(words, watch, script=b"", seconds=60):
    """Gives a line, and shows each of its calls to `watch`, which answers None, or an End, an Answer or an Only."""
    words = [os.fsencode(word) for word in words]
    with tempfile.TemporaryFile() as stdin, tempfile.TemporaryFile() as out, tempfile.TemporaryFile() as err:
        stdin.write(script)
        stdin.seek(0)
        child = os.fork()
        if child == 0:
            become(words, stdin, out, err)
        before = signal.signal(signal.SIGALRM, ring)
        signal.setitimer(signal.ITIMER_REAL, seconds)
        is_over = False
        try:
            status = steps(child, watch)
            is_over = True
        finally:
            signal.setitimer(signal.ITIMER_REAL, 0)
            signal.signal(signal.SIGALRM, before)
            if not is_over:
                os.kill(child, signal.SIGKILL)
                os.waitpid(child, 0)
        out.seek(0)
        err.seek(0)
        return Followed(status, out.read(), err.read())


def can_follow():
    """Whether a program can be followed here: its calls are seen."""
    if platform.machine() != "x86_64" or not os.path.exists("/proc/self/mem"):
        return False
    seen = []
    told = follow(["/bin/sh", "-c", "exit 7"], lambda call: seen.append(call.name))
    return told.status == 7 and "exit" in seen

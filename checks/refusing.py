"""What refuses system calls: a library that is loaded before that of C, and what starts a process
that it's loaded in. It counts the calls that open, write, rename, remove, fork and connect, in the
process and in those that it forks, but not in other programs that these start; and it lets the one
of a number fail, or kills the process there.

What Python opens to load its modules isn't counted, nor what goes to the standard error.
"""

import os
import subprocess
from pathlib import Path
from typing import IO

TOP = Path(__file__).resolve().parent.parent
KILL, FULL = -1, -2
# `which` is the place of the error among those that a call may have; KILL kills, and FULL has the
# disk be full from then on. A line of the log has the number of a call, of how many errors, whether
# a full disk is one, its name and what it's of.
LIBRARY = r"""
#define _GNU_SOURCE
#include <dlfcn.h>
#include <errno.h>
#include <fcntl.h>
#include <signal.h>
#include <stdarg.h>
#include <stdio.h>
#include <stdlib.h>
#include <string.h>
#include <sys/mman.h>
#include <sys/socket.h>
#include <sys/stat.h>
#include <unistd.h>

enum { KILL = -1, FULL = -2 };
static long *count, wanted;
static int which, log_to;
static const int READ[] = {EIO, EACCES, EMFILE}, MADE[] = {ENOSPC, EIO, EACCES, EMFILE},
    WRITTEN[] = {ENOSPC, EIO}, REMOVED[] = {EIO, EACCES}, FORKED[] = {EAGAIN, ENOMEM},
    OPENED[] = {EMFILE}, CONNECTED[] = {EACCES, ECONNREFUSED}, SENT[] = {EPIPE, ECONNRESET},
    PIPED[] = {EPIPE};

void refuse(long number, int error, const char *path) {
    wanted = number;
    which = error;
    log_to = open(path, O_WRONLY | O_CREAT | O_APPEND | O_CLOEXEC, 0600);
    count = mmap(0, sizeof *count, PROT_READ | PROT_WRITE, MAP_SHARED | MAP_ANONYMOUS, -1, 0);
}

static int is_refused(const char *call, const char *of, const int *errors, int length) {
    if (!count)
        return 0;
    long number = __atomic_add_fetch(count, 1, __ATOMIC_SEQ_CST);
    int is_it = number == wanted, is_full = which == FULL && number > wanted && wanted;
    if (!wanted || is_it)
        dprintf(log_to, "%ld %d %d %s %s\n", number, length, *errors == ENOSPC, call, of ? of : "");
    if (!is_it && !(is_full && *errors == ENOSPC))
        return 0;
    if (which == KILL)
        kill(getpid(), SIGKILL);
    errno = which == FULL ? ENOSPC : errors[which % length];
    return 1;
}

static int is_of_python(const char *path) {
    return strstr(path, "/python3") || strstr(path, ".py") || strstr(path, "/codenav/tools/")
        || !strncmp(path, "/dev/", 5) || !strncmp(path, "/etc/", 5) || !strncmp(path, "/proc/", 6)
        || !strncmp(path, "/sys/", 5) || strstr(path, ".so");
}

#define LENGTH(errors) ((int)(sizeof(errors) / sizeof *(errors)))
#define REFUSED(call, of, errors) is_refused(call, of, errors, LENGTH(errors))
#define WRAPPED(result, name, given, passed, of, errors)         \
    result name given {                                          \
        static result(*real) given;                              \
        if (!real)                                               \
            real = dlsym(RTLD_NEXT, #name);                      \
        return REFUSED(#name, of, errors) ? -1 : real passed;    \
    }

static int is_open_refused(const char *path, int flags) {
    if (is_of_python(path))
        return 0;
    return flags & (O_WRONLY | O_RDWR) ? REFUSED("make", path, MADE) : REFUSED("open", path, READ);
}

#define OPEN(name)                                               \
    int name(const char *path, int flags, ...) {                 \
        static int (*real)(const char *, int, ...);              \
        va_list rest;                                            \
        va_start(rest, flags);                                   \
        int mode = flags & (O_CREAT | O_TMPFILE) ? va_arg(rest, int) : 0; \
        va_end(rest);                                            \
        if (!real)                                               \
            real = dlsym(RTLD_NEXT, #name);                      \
        return is_open_refused(path, flags) ? -1 : real(path, flags, mode); \
    }
#define OPEN_AT(name)                                            \
    int name(int at, const char *path, int flags, ...) {         \
        static int (*real)(int, const char *, int, ...);         \
        va_list rest;                                            \
        va_start(rest, flags);                                   \
        int mode = flags & (O_CREAT | O_TMPFILE) ? va_arg(rest, int) : 0; \
        va_end(rest);                                            \
        if (!real)                                               \
            real = dlsym(RTLD_NEXT, #name);                      \
        return is_open_refused(path, flags) ? -1 : real(at, path, flags, mode); \
    }
OPEN(open)
OPEN(open64)
OPEN_AT(openat)
OPEN_AT(openat64)

ssize_t write(int to, const void *from, size_t size) {
    static ssize_t (*real)(int, const void *, size_t);
    struct stat of;
    if (!real)
        real = dlsym(RTLD_NEXT, "write");
    int is_file = !fstat(to, &of) && S_ISREG(of.st_mode);
    const char *name = to == 1 ? "1" : is_file ? "" : "pipe";
    /* the pipe by which a process hears of its signals has both its ends there, so it can't break */
    if (to == 2 || (size == 1 && fcntl(to, F_GETFL) & O_NONBLOCK))
        return real(to, from, size);
    int is_no = is_file ? REFUSED("write", name, WRITTEN) : REFUSED("write", name, PIPED);
    return is_no ? -1 : real(to, from, size);
}

WRAPPED(ssize_t, pwrite64, (int to, const void *from, size_t size, off64_t at),
        (to, from, size, at), "", WRITTEN)
WRAPPED(ssize_t, copy_file_range,
        (int from, off64_t *at, int to, off64_t *to_at, size_t size, unsigned flags),
        (from, at, to, to_at, size, flags), "", WRITTEN)
WRAPPED(int, chown, (const char *path, uid_t user, gid_t group), (path, user, group), path, REMOVED)
WRAPPED(int, ftruncate64, (int of, off64_t size), (of, size), "", WRITTEN)
WRAPPED(int, truncate64, (const char *path, off64_t size), (path, size), path, WRITTEN)
WRAPPED(int, fsync, (int of), (of), "", WRITTEN)
WRAPPED(int, rename, (const char *from, const char *to), (from, to), to, MADE)
WRAPPED(int, link, (const char *from, const char *to), (from, to), to, MADE)
WRAPPED(int, mkdir, (const char *path, mode_t mode), (path, mode), path, MADE)
WRAPPED(int, chmod, (const char *path, mode_t mode), (path, mode), path, REMOVED)
WRAPPED(int, fchmod, (int of, mode_t mode), (of, mode), "", REMOVED)
WRAPPED(int, unlink, (const char *path), (path), path, REMOVED)
WRAPPED(int, unlinkat, (int at, const char *path, int flags), (at, path, flags), path, REMOVED)
WRAPPED(int, rmdir, (const char *path), (path), path, REMOVED)
WRAPPED(pid_t, fork, (void), (), "", FORKED)
WRAPPED(int, pipe2, (int both[2], int flags), (both, flags), "", OPENED)
WRAPPED(int, socket, (int domain, int type, int protocol), (domain, type, protocol), "", OPENED)
WRAPPED(ssize_t, send, (int to, const void *from, size_t size, int flags), (to, from, size, flags),
        "", SENT)
WRAPPED(int, connect, (int of, const struct sockaddr *to, socklen_t size), (of, to, size), "",
        CONNECTED)
"""
# a process starts others by fork, and these are without the library; which folder is that of
# temporary files is Python's to find
CALL = """
import ctypes, os, subprocess, sys, tempfile
subprocess._USE_VFORK = False
tempfile.gettempdir()
del os.environ["LD_PRELOAD"]
number, which, log, elements, tools = sys.argv[1:6]
del sys.argv[1:6]
sys.path.insert(0, tools)
from codenav import limits
limits.MOST_ELEMENTS = int(elements)
from codenav.cli.main import run
ctypes.CDLL(None).refuse(int(number), int(which), log.encode())
run()
"""


def built(folder: str, text: str = LIBRARY) -> str:
    """A library of a text in C, built in a folder."""
    source, library = Path(folder, "refuse.c"), f"{folder}/refuse.so"
    source.write_text(text, encoding="ascii")
    compiler = os.environ.get("CC", "cc")
    words = [compiler, "-O2", "-shared", "-fPIC", str(source), "-o", library, "-ldl"]
    subprocess.run(words, check=True)
    return library


def started(
    library: str,
    refused: tuple[int, int, str],
    elements: int,
    words: list[str],
    env: dict[str, str],
    to: tuple[IO[bytes], IO[bytes]],
) -> "subprocess.Popen[bytes]":
    """A call of `codenav`, of which the system call of a number is refused by an error, and logged
    in a file; for 0 none is, and each is logged. A part of a set has so many elements at most, and
    what's printed goes to the two files."""
    given = [*map(str, refused), str(elements), str(TOP / "tools"), *words]
    return subprocess.Popen(
        ["/usr/bin/python3", "-B", "-c", CALL, *given],
        stdin=subprocess.DEVNULL,
        stdout=to[0],
        stderr=to[1],
        env={**env, "LD_PRELOAD": library},
    )

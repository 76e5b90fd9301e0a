"""What keeps a program's threads from their work, for tools/storm and tools/kill.

Single threads are frozen, all are pinned to one processor or starved on a busy one, and starts of
threads are refused.
"""
import contextlib
import ctypes
import os
import shutil
import subprocess
from pathlib import Path

LIBC = ctypes.CDLL(None)
LIBC.ptrace.argtypes = [ctypes.c_long, ctypes.c_long, ctypes.c_void_p, ctypes.c_void_p]
SEIZE, INTERRUPT, DETACH, ANY_THREAD = 0x4206, 0x4207, 17, 0x40000000

# Refuses those starts of threads that have a 1 in REFUSED_THREADS, in their order.
REFUSER = r"""
#define _GNU_SOURCE
#include <dlfcn.h>
#include <errno.h>
#include <pthread.h>
#include <stdlib.h>
#include <string.h>
typedef int create(pthread_t *, const pthread_attr_t *, void *(*)(void *), void *);
static size_t starts;
int pthread_create(pthread_t *thread, const pthread_attr_t *how, void *(*work)(void *), void *with)
{
    const char *refused = getenv("REFUSED_THREADS");
    size_t start = __atomic_fetch_add(&starts, 1, __ATOMIC_RELAXED);
    if (start < strlen(refused) && refused[start] == '1') return EAGAIN;
    return ((create *)dlsym(RTLD_NEXT, "pthread_create"))(thread, how, work, with);
}
"""


def threads_of(process):
    """The numbers of the process's threads but for its first one."""
    with contextlib.suppress(OSError):
        found = map(int, os.listdir(f"/proc/{process}/task"))
        return sorted(it for it in found if it != process)
    return []


def freeze(thread):
    """Stops one thread alone, and says whether it did. The thread of this program that froze it has
    to thaw it, too."""
    if LIBC.ptrace(SEIZE, thread, None, None):
        return False
    LIBC.ptrace(INTERRUPT, thread, None, None)
    return os.WIFSTOPPED(os.waitpid(thread, ANY_THREAD)[1])


def thaw(thread):
    """Lets a frozen thread go on. One that was killed meanwhile is taken leave of."""
    if LIBC.ptrace(DETACH, thread, None, None):
        with contextlib.suppress(ChildProcessError):
            os.waitpid(thread, ANY_THREAD)


def can_freeze():
    """Whether this program may freeze threads of those that it starts."""
    with subprocess.Popen(["sleep", "60"]) as asleep:
        frozen = freeze(asleep.pid)
        if frozen:
            thaw(asleep.pid)
        asleep.kill()
    return frozen


def pinned(processor):
    """The words before a command that has this processor alone."""
    return ["taskset", "-c", str(processor)]


def starved(processor):
    """The words before a command that gets little of this processor, if that is busy."""
    return [*pinned(processor), "nice", "-n", "19"]


@contextlib.contextmanager
def busy(processor):
    """Keeps this processor busy while the block lasts."""
    with subprocess.Popen([*pinned(processor), "sh", "-c", "while :; do :; done"]) as loop:
        try:
            yield
        finally:
            loop.kill()


class ThreadRefuser:
    """A library that refuses starts of threads. Without cc there is none, and none is refused."""

    def __init__(self, folder):
        self.library = None
        if shutil.which("cc"):
            source, self.library = Path(folder, "refuser.c"), Path(folder, "refuser.so")
            source.write_text(REFUSER)
            words = ["cc", "-shared", "-fPIC", "-O1", "-o", self.library, source]
            subprocess.run(words, check=True)
            self.library.chmod(0o755)

    def environment(self, refused):
        """The environment of a command whose starts of threads are refused where this text has a 1,
        such as 0010 for the third one."""
        return {**os.environ, "LD_PRELOAD": str(self.library), "REFUSED_THREADS": refused}

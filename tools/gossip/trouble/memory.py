"""Refuses memory to a process, one allocation at a time.

The program allocates its memory with calls of the C library. A small library that is loaded before the C library counts these calls, and
refuses the one with a given number. The count is kept in a file.
"""
import dataclasses
import os
import pathlib
import struct
import subprocess
from collections.abc import Iterable

from gossip.programs.bar import Ran, await_end, run_words, running, status_of
from gossip.trouble.hazards import Skipped, found

SOURCE = """
#define _GNU_SOURCE
#include <errno.h>
#include <fcntl.h>
#include <stddef.h>
#include <stdlib.h>
#include <sys/mman.h>
#include <unistd.h>

void *__libc_malloc(size_t);
void *__libc_calloc(size_t, size_t);
void *__libc_realloc(void *, size_t);
void *__libc_memalign(size_t, size_t);

static volatile struct { long long refused, counted; } *place;

__attribute__((constructor)) static void find_place(void) {
    const char *path = getenv("COUNTED_ALLOCATIONS");
    int file = path ? open(path, O_RDWR) : -1;
    void *found = file < 0 ? MAP_FAILED : mmap(NULL, sizeof *place, PROT_READ | PROT_WRITE, MAP_SHARED, file, 0);
    if (file >= 0) close(file);
    if (found != MAP_FAILED) place = found;
}

static int is_refused(void) {
    if (!place || ++place->counted != place->refused) return 0;
    errno = ENOMEM;
    return 1;
}

void *malloc(size_t size) { return is_refused() ? NULL : __libc_malloc(size); }
void *calloc(size_t count, size_t size) { return is_refused() ? NULL : __libc_calloc(count, size); }
void *realloc(void *old, size_t size) { return size && is_refused() ? NULL : __libc_realloc(old, size); }
void *memalign(size_t to, size_t size) { return is_refused() ? NULL : __libc_memalign(to, size); }
void *aligned_alloc(size_t to, size_t size) { return memalign(to, size); }

int posix_memalign(void **made, size_t to, size_t size) {
    void *bytes = memalign(to, size);
    if (bytes) *made = bytes;
    return bytes ? 0 : ENOMEM;
}
"""

FORM = "=qq"


@dataclasses.dataclass(frozen=True)
class Refused:
    """How a process ended, and how many allocations it asked for."""

    ran: Ran
    counted: int


class Refusing:
    """The library, compiled in a folder."""

    def __init__(self, room: pathlib.Path) -> None:
        self.library = room / "memory.so"
        source = room / "memory.c"
        source.write_text(SOURCE, "utf-8")
        ran = run_words(found("cc"), ["-shared", "-fPIC", "-o", str(self.library), str(source)])
        if ran.status:
            raise Skipped(f"`cc` ends with status {ran.status}: {' '.join(ran.said.decode(errors='replace').split())}")

    def run(self, words: Iterable[object], place: pathlib.Path, number: int = 0) -> Refused:
        """Runs a process to its end. Its allocation with this number, counted from 1, is refused; if the number is 0, none is. The
        count is kept in a new file at `place`.
        """
        place.write_bytes(struct.pack(FORM, number, 0))
        environment = os.environ | {"LD_PRELOAD": str(self.library), "COUNTED_ALLOCATIONS": str(place)}
        with running([*map(str, words)], stdout=subprocess.PIPE, stderr=subprocess.PIPE, env=environment) as process:
            printed, said = await_end(process)
        return Refused(Ran(status_of(process), printed, said), struct.unpack(FORM, place.read_bytes())[1])

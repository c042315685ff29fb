"""A clock that is set forward or back for one process, while the machine's own clock stays as it is.

The program reads the machine's time of day (CLOCK_REALTIME) through the C library, and waits only for spans of time. So a small library
that is loaded before the C library can return another time. The seconds that it adds are in a file, which may change while the process
runs. A time namespace isn't enough, because it shifts only clocks that count from the machine's start.
"""
import os
import pathlib
import struct

from gossip.programs.bar import run_words
from gossip.trouble.hazards import Skipped, found

SOURCE = """
#define _GNU_SOURCE
#include <fcntl.h>
#include <stdlib.h>
#include <sys/mman.h>
#include <sys/syscall.h>
#include <time.h>
#include <unistd.h>

static volatile const long long *seconds;

__attribute__((constructor)) static void find_seconds(void) {
    const char *path = getenv("SHIFTED_SECONDS");
    int file = path ? open(path, O_RDONLY) : -1;
    void *place = file < 0 ? MAP_FAILED : mmap(NULL, sizeof *seconds, PROT_READ, MAP_SHARED, file, 0);
    if (file >= 0) close(file);
    if (place != MAP_FAILED) seconds = place;
}

int clock_gettime(clockid_t clock, struct timespec *time) {
    int failed = (int)syscall(SYS_clock_gettime, clock, time);
    if (!failed && clock == CLOCK_REALTIME && seconds) time->tv_sec += *seconds;
    return failed;
}
"""


class Clock:
    """A clock in a folder, which is correct at first."""

    def __init__(self, room: pathlib.Path) -> None:
        self.library, self.file = room / "clock.so", room / "seconds"
        source = room / "clock.c"
        source.write_text(SOURCE, "utf-8")
        ran = run_words(found("cc"), ["-shared", "-fPIC", "-o", str(self.library), str(source)])
        if ran.status:
            raise Skipped(f"`cc` ends with status {ran.status}: {' '.join(ran.said.decode(errors='replace').split())}")
        self.set(0)

    @property
    def environment(self) -> dict[str, str]:
        """The environment of a process that reads this clock."""
        return os.environ | {"LD_PRELOAD": str(self.library), "SHIFTED_SECONDS": str(self.file)}

    def set(self, seconds: int) -> None:
        """Sets the clock so many seconds ahead of the machine's, or behind it if the number is negative."""
        with open(self.file, "r+b" if self.file.exists() else "wb") as file:
            file.write(struct.pack("=q", seconds))

    def require(self, process: int) -> None:
        """Raises `Skipped` if a process doesn't read this clock, because it loads no library before its own."""
        if str(self.library) not in pathlib.Path(f"/proc/{process}/maps").read_text("utf-8"):
            raise Skipped("the program takes no library before its own, so its clock can't be set")

"""Trouble in which a process is started: small, full and read-only folders, and limits of the system.

What a machine doesn't allow is skipped. Each trouble is given as a prefix of the command that starts the process. Folders are mounted in a
namespace of the process alone, so nothing stays mounted after it.
"""
import functools
import os
import pathlib
import shutil
import subprocess
import tempfile

MOUNT = 'place=$0; kept=$1; shift; mount -t tmpfs -o size=%s tmpfs "$place" || exit 125; %s'
KEEP = '"$@"; ended=$?; cp -R "$place/." "$kept"; exit $ended'
FILL = 'cat /dev/zero > "$place/filler" 2> "$kept/filled"; '
READ_ONLY = 'mount --bind "$0" "$0" && mount -o remount,bind,ro "$0" || exit 125; exec "$@"'

# the status of a shell that couldn't mount
UNMOUNTED = 125


class Skipped(Exception):
    """Raised with the reason if this machine doesn't allow something."""


def found(tool: str) -> str:
    """Returns the path of a tool of the system. Raises `Skipped` if it is missing."""
    path = shutil.which(tool)
    if not path:
        raise Skipped(f"there is no `{tool}`")
    return path


@functools.cache
def namespace() -> list[str]:
    """Returns the command prefix that gives a process mounts of its own."""
    rights = [] if os.geteuid() == 0 else ["--user", "--map-root-user"]
    words = [found("unshare"), *rights, "--mount"]
    with tempfile.TemporaryDirectory() as place:
        probe = subprocess.run([*words, "mount", "-t", "tmpfs", "tmpfs", place], capture_output=True, text=True, stdin=subprocess.DEVNULL)
    if probe.returncode:
        raise Skipped(f"nothing can be mounted: {' '.join(probe.stderr.split())}")
    return words


def on_small_disk(place: pathlib.Path, kept: pathlib.Path, size: str, is_full: bool = False) -> list[str]:
    """Returns the command prefix that mounts a disk of this size over `place`, filled if `is_full`, and copies its files to `kept`."""
    return [*namespace(), "sh", "-c", MOUNT % (size, FILL if is_full else "") + KEEP, str(place), str(kept)]


def on_read_only(place: pathlib.Path) -> list[str]:
    """Returns the command prefix that makes a folder read-only."""
    return [*namespace(), "sh", "-c", READ_ONLY, str(place)]


def without_network() -> list[str]:
    """Returns the command prefix that takes the network away, including the loopback address."""
    rights = [] if os.geteuid() == 0 else ["--user", "--map-root-user"]
    words = [found("unshare"), *rights, "--net"]
    probe = subprocess.run([*words, "true"], capture_output=True, text=True, stdin=subprocess.DEVNULL)
    if probe.returncode:
        raise Skipped(f"the network can't be taken away: {' '.join(probe.stderr.split())}")
    return words


def limited(name: str, value: int) -> list[str]:
    """Returns the command prefix that sets a limit: `nofile` of open files, `as` of bytes of memory, `fsize` of a file's bytes."""
    return [found("prlimit"), f"--{name}={value}:{value}"]


def without_signal(name: str) -> list[str]:
    """Returns the command prefix that makes a process ignore a signal."""
    return ["sh", "-c", f'trap "" {name}; exec "$0" "$@"']

"""Makes a test video as a stream with ffmpeg, and decodes what each peer played of it, as far as that is possible.

The video is made as MPEG-TS. A frame counts if the decoder returns one, however much of it is patched up. The still of a peer is what a
player would show at one moment: the last frame that is due by then.
"""
import bisect
import pathlib
import shutil
from collections.abc import Iterable, Iterator, Sequence

from gossip.drawings import timeline
from gossip.drawings.decoded import Seen, Video
from gossip.formats.files import UPDATES, Numbers, room_of
from gossip.networks.disturbances import Network
from gossip.programs.bar import run_words, spread
from gossip.reports.run_data import Run
from gossip.scripts.console import Failure, counted, say
from gossip.sessions.session_folder import Folder

# the programs that are needed, and the package that has them
NEEDED, PACKAGE = ("ffmpeg", "ffprobe"), "Debian's package ffmpeg"

SECONDS, RATE, SIZE = 30, 25, "640x360"
# the bits of a second of the video: with what MPEG-TS adds, they are fewer than the rounds of a second carry
BITS = 240_000
# a key frame comes each second, so the damage by a gap ends there
PICTURES = ["-c:v", "libx264", "-preset", "fast", "-b:v", BITS, "-maxrate", BITS, "-bufsize", BITS, "-g", RATE, "-bf", 0]
PICTURES += ["-pix_fmt", "yuv420p"]

# the number of rounds after those in which the video is sent
MORE = 4
# the numbers of the session that sends the video, and its network
NUMBERS = {"per_round": UPDATES[1], "life": 10, "cap": 16, "tick_ms": 200}
NETWORK = Network(loss=5, seed="video")

# the width of a still, and half the time between two frames
WIDTH, NEAR = 320, 0.5 / RATE


def faults_of_ffmpeg() -> Iterator[str]:
    """Yields why no video can be made, if a program is missing."""
    missing = [name for name in NEEDED if not shutil.which(name)]
    if missing:
        yield f"a video needs {' and '.join(missing)}, which {PACKAGE} has: install it (apt-get install ffmpeg), or leave --video out"


def called(program: str, *words: str | pathlib.Path) -> bytes:
    """Returns what a program prints on standard output. Its messages and its status are ignored, since files may have gaps."""
    return run_words(program, words).printed


def make(path: pathlib.Path, seconds: float = SECONDS) -> None:
    """Makes a video of this many seconds, at a path where no file is."""
    source = "-f", "lavfi", "-i", f"testsrc2=size={SIZE}:rate={RATE}:duration={seconds}"
    words = *source, *map(str, PICTURES), "-f", "mpegts"
    called("ffmpeg", "-v", "quiet", *words, path)
    if not path.exists() or not path.stat().st_size:
        raise Failure(f"no video was made by `ffmpeg {' '.join(words)} {path}`")


def rounds_for(path: pathlib.Path) -> Numbers:
    """Returns the number of rounds of a session for a video: those in which it is sent, and some more in which its end is traded."""
    return {"rounds": -(-path.stat().st_size // room_of(1, NUMBERS["per_round"])) + MORE}


# ---- what is decoded


def times_of(path: pathlib.Path) -> list[float]:
    """Returns the times of the frames that decode, in seconds and in rising order."""
    asked = "-select_streams", "v:0", "-show_entries", "frame=pts_time", "-of", "csv=p=0"
    lines = called("ffprobe", "-v", "quiet", *asked, path).decode(errors="replace").split()
    return sorted(float(it.strip(",")) for it in lines if it.strip(",").replace(".", "", 1).isdigit())


def still_of(path: pathlib.Path, time: float) -> bytes:
    """Returns the frame at this time, as JPEG."""
    chosen = f"select=gte(t\\,{time - NEAR:.3f}),scale={WIDTH}:-2"
    return called("ffmpeg", "-v", "quiet", "-copyts", "-i", path, "-map", "0:v:0", "-vf", chosen, "-frames:v", "1", "-f", "mjpeg", "-")


def has_frame(times: Sequence[float], time: float) -> bool:
    """Whether there is a frame at this time, by the times of all frames in rising order."""
    at = bisect.bisect(times, time - NEAR)
    return at < len(times) and times[at] < time + NEAR


def moment_of(whole: Sequence[float], others: Iterable[Sequence[float]]) -> float:
    """Returns the time of the frame that most of the others lack, and of several such frames the one next to the middle."""
    middle = whole[len(whole) // 2]
    return max(whole, key=lambda time: (sum(not has_frame(times, time) for times in others), -abs(time - middle)))


def seen(path: pathlib.Path, times: Sequence[float], moment: float, begin: float) -> Seen:
    """Returns what decodes of a file with frames at these times, with its still at a moment. Seconds are counted from `begin`."""
    due = bisect.bisect(times, moment + NEAR)
    return Seen(len(times), still_of(path, times[due - 1]), times[due - 1] - begin) if due else Seen(len(times))


def video_of(folder: Folder, peers: Iterable[int]) -> Video:
    """Returns what decodes in the folder of a session that was run."""
    played = [peer for peer in peers if folder.played(peer).exists()]
    paths = [folder.stream, *map(folder.played, played)]
    whole, *others = times = spread(times_of, paths)
    if not whole:
        raise Failure(f"no frame of {folder.stream} decodes")
    moment = moment_of(whole, others)
    found = spread(lambda of: seen(*of, moment, whole[0]), [*zip(paths, times)])
    return Video(found[0], dict(zip(played, found[1:])))


def add_to_page(folder: Folder) -> None:
    """Prints how many frames of each peer decode, writes what decodes beside the run's data, and the run's page again.

    If the folder has no data of a run, nothing is done.
    """
    if not folder.data.exists():
        return
    run = Run.of_json(folder.data.read_text("utf-8"))
    video = video_of(folder, [peer.peer for peer in run.peers])
    for peer, it in video.peers.items():
        say(f"peer {peer}: {it.frames:,} of {counted(video.whole.frames, 'frame')} decode")
    folder.video.write_text(video.to_json(), "utf-8")
    folder.page.write_text(timeline.page(run, video), "utf-8")

"""Reads and writes `video.json`, which docs/FORMATS.md describes: what decodes of a video, and of what each peer played of it."""
import base64
import dataclasses
import json

from gossip.formats.files import Malformed
from gossip.sessions.session_folder import Folder


@dataclasses.dataclass(frozen=True)
class Seen:
    """What decodes of a file: how many frames, the still as JPEG, and the second of the still. If no frame was due, there is no still."""

    frames: int
    still: bytes = b""
    second: float = 0

    @property
    def picture(self) -> str:
        """The still as a data URL."""
        return f"data:image/jpeg;base64,{self.row[1]}"

    @property
    def row(self) -> list[int | str | float]:
        """All fields as JSON has them, with the still in base64."""
        return [self.frames, base64.b64encode(self.still).decode(), self.second]

    @classmethod
    def of_row(cls, frames: int, still: str, second: float) -> "Seen":
        return cls(frames, base64.b64decode(still, validate=True), second)


@dataclasses.dataclass(frozen=True)
class Video:
    """What decodes of a stream, and of what each peer played, by peer."""

    whole: Seen
    peers: dict[int, Seen]

    def to_json(self) -> str:
        """The text of video.json."""
        rows = ",\n".join(json.dumps([peer, *seen.row]) for peer, seen in self.peers.items())
        return f'{{"stream": {json.dumps(self.whole.row)}, "peers": [\n{rows}]}}\n'

    @classmethod
    def of_json(cls, text: str) -> "Video":
        """Reads the text of a video.json."""
        try:
            document = json.loads(text)
            return cls(Seen.of_row(*document["stream"]), {peer: Seen.of_row(*row) for peer, *row in document["peers"]})
        except (ValueError, KeyError, TypeError) as error:
            raise Malformed(f"it isn't a video.json: {type(error).__name__} {error}") from None


def video_in(folder: Folder) -> Video | None:
    """Returns what decodes of the video of a folder, or `None` if the folder has no video.json."""
    return Video.of_json(folder.video.read_text("utf-8")) if folder.video.exists() else None

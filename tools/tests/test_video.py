"""A video as a stream: what is refused, which moment is shown, what stands on the page, and files with gaps, which need ffmpeg."""
import os
import unittest
from unittest import mock

from support import TOOLS, RoomCase, lines_of, run_script, start_script

from gossip.drawings import decoded, timeline, videos
from gossip.formats.files import Malformed, room_of
from gossip.programs.bar import PROGRAM
from gossip.runs import runner
from gossip.scripts.console import Failure
from gossip.sessions.session_folder import Folder
from made_runs import busy_run

# why files aren't tried, where a program is missing
SKIPPED = next(videos.faults_of_ffmpeg(), None)
SIZE = 1022


def seen(frames, second=2.0, still=b"\xff\xd8"):
    return videos.Seen(frames, still, second)


class Refusals(RoomCase):
    def refused(self, *words):
        """The line with which the demo refuses these words, where no program of a video is found."""
        status, out, err = run_script(TOOLS / "demo", *words, env=os.environ | {"PATH": str(self.room)})
        self.assertEqual((status, out), (2, []))
        return err

    def test_programs_that_are_missing(self):
        told = "a video needs ffmpeg and ffprobe, which Debian's package ffmpeg has: install it (apt-get install ffmpeg)"
        self.assertEqual(self.refused("--video"), [f"REFUSED: {told}, or leave --video out"])

    def test_rounds_that_are_named(self):
        self.assertIn("--rounds goes with no --video", "".join(self.refused("--video", "--rounds", 10)))

    def test_a_program_that_makes_nothing(self):
        with mock.patch("gossip.drawings.videos.called", return_value=b""), self.assertRaises(Failure) as failed:
            videos.make(self.room / "video")
        self.assertIn("no video was made by `ffmpeg -f lavfi ", str(failed.exception))


class Moments(unittest.TestCase):
    times = [0.04 * at for at in range(100)]

    def test_the_middle_where_nobody_lacks_a_frame(self):
        self.assertEqual(videos.moment_of(self.times, [self.times, self.times]), self.times[50])

    def test_the_moment_at_which_most_lack_the_frame(self):
        one, other = ([it for at, it in enumerate(self.times) if at not in lacks] for lacks in ({10, 11, 12}, {12, 13, 60}))
        self.assertEqual(videos.moment_of(self.times, [self.times, one, other]), self.times[12])

    def test_a_still_is_the_last_frame_that_is_due(self):
        with mock.patch("gossip.drawings.videos.still_of", side_effect=lambda path, time: b"%.2f" % time):
            self.assertEqual(videos.seen("", [1.0, 1.04, 1.2], 1.12, 1.0), videos.Seen(3, b"1.04", 1.04 - 1.0))
            self.assertEqual(videos.seen("", [1.2, 1.24], 1.12, 1.0), videos.Seen(2))
            self.assertEqual(videos.seen("", [], 1.12, 1.0), videos.Seen(0))


class OnThePage(RoomCase):
    def setUp(self):
        super().setUp()
        self.run_ = busy_run(3, 2)
        self.video = videos.Video(seen(750), {1: seen(750), 2: seen(712, 1.5), 3: videos.Seen(0)})

    def test_stills_and_frames_stand_beside_the_bytes(self):
        page = timeline.page(self.run_, self.video)
        self.assertEqual(page.count("<figure>"), 4)
        self.assertEqual(page.count('<img src="data:image/jpeg;base64,/9g="'), 3)
        self.assertIn('<div class="none">nothing to show</div><figcaption><b>peer 3</b> 0 of 750 frames decode', page)
        part = f"{self.run_.peers[1].bytes_played / self.run_.stream:.1%}"
        self.assertIn(f"<b>peer 2</b> 712 of 750 frames decode, of {part} of the bytes; this one stands for 0.50 s</figcaption>", page)
        self.assertIn("At no other moment do more peers lack their frame.", page)
        played = f"{self.run_.peers[1].bytes_played:,}"
        self.assertIn(f"<tr><td>2</td><td>{played}</td><td>{part}</td><td>712</td>", page)

    def test_a_run_of_no_video_has_none_of_it(self):
        page = timeline.page(self.run_)
        self.assertNotIn("<figure>", page)
        self.assertNotIn("frames that decode", page)

    def test_the_page_is_written_anew(self):
        folder = Folder(self.room)
        folder.data.write_text(self.run_.to_json())
        with mock.patch("gossip.drawings.videos.video_of", return_value=self.video):
            _, lines, _ = lines_of(lambda: videos.add_to_page(folder))
        told = ["750", "712", "0"]
        self.assertEqual(lines, [f"peer {peer}: {count} of 750 frames decode" for peer, count in enumerate(told, 1)])
        self.assertEqual(folder.page.read_text("utf-8"), timeline.page(self.run_, self.video))

    def test_a_page_that_is_drawn_again_has_the_video(self):
        folder = Folder(self.room)
        self.assertEqual(runner.draw(folder, self.run_, None), ([], f"page {folder.page}"))
        self.assertEqual(folder.page.read_text("utf-8"), timeline.page(self.run_))
        folder.video.write_text(self.video.to_json())
        self.assertEqual(decoded.video_in(folder), self.video)
        self.assertEqual(runner.draw(folder, self.run_, None), ([], f"page {folder.page}"))
        self.assertEqual(folder.page.read_text("utf-8"), timeline.page(self.run_, self.video))

    def test_a_file_that_is_no_video(self):
        folder = Folder(self.room)
        for text in ("", "{}", '{"stream": [1, 2], "peers": []}', '{"stream": [1, "?", 2.0], "peers": []}', '{"stream": 1, "peers": 2}'):
            with self.assertRaises(Malformed):
                decoded.Video.of_json(text)
        folder.video.write_text("[]")
        (cause,), told = runner.draw(folder, self.run_, None)
        self.assertTrue(cause.startswith(f"{folder.video} can't be read: it isn't a video.json: "), cause)
        self.assertEqual(told, "timeline.html isn't drawn")

    def test_a_run_without_a_page(self):
        folder = Folder(self.room)
        self.assertEqual(lines_of(lambda: videos.add_to_page(folder)), (None, [], []))
        self.assertFalse(folder.page.exists())


@unittest.skipIf(SKIPPED, SKIPPED)
class Files(RoomCase):
    """A video of two seconds, and what decodes of it where parts are missing."""

    def setUp(self):
        super().setUp()
        self.folder = Folder(self.room)
        self.stream.unlink()
        videos.make(self.folder.stream, 2)
        data = self.folder.stream.read_bytes()
        self.parts = [data[at : at + SIZE] for at in range(0, len(data), SIZE)]

    def play(self, peer, lacks):
        kept = [part for at, part in enumerate(self.parts) if at not in lacks]
        self.folder.played(peer).write_bytes(b"".join(kept))

    def test_gaps(self):
        middle = len(self.parts) // 2
        self.play(1, {})
        self.play(2, range(middle, middle + 20))
        self.folder.played(3).write_bytes(b"")
        video = videos.video_of(self.folder, [1, 2, 3, 4])
        self.assertEqual(video.whole.frames, 2 * videos.RATE)
        self.assertEqual([*video.peers], [1, 2, 3])
        whole, gaps, nothing = video.peers.values()
        self.assertEqual((whole.frames, whole.second, nothing), (video.whole.frames, video.whole.second, videos.Seen(0)))
        self.assertTrue(0 < gaps.frames < whole.frames, gaps.frames)
        self.assertLess(gaps.second, whole.second)
        self.assertEqual({it.still[:2] for it in (video.whole, whole, gaps)}, {b"\xff\xd8"})

    def test_a_session_has_room_for_it(self):
        rounds = videos.rounds_for(self.folder.stream)["rounds"]
        self.assertGreaterEqual(room_of(rounds - videos.MORE, videos.NUMBERS["per_round"]), self.folder.stream.stat().st_size)

    def test_a_stream_that_does_not_decode(self):
        self.folder.stream.write_bytes(b"no video" * 100)
        with self.assertRaises(Failure):
            videos.video_of(self.folder, [])


@unittest.skipIf(SKIPPED, SKIPPED)
@unittest.skipUnless(PROGRAM.exists(), f"there is no {PROGRAM}")
class Demo(RoomCase):
    """The demo itself, by the built program, with ticks so short that little may be played."""

    def test_a_video_through_three_peers(self):
        room = os.environ | {"TMPDIR": str(self.room)}
        with start_script("demo", "--video", "--peers", 3, "--tick-ms", 40, env=room) as process:
            out, err = process.communicate(timeout=300)
        self.assertEqual(process.returncode, 0, out + err)
        told = [line for line in out.splitlines() if line.endswith(" frames decode")]
        self.assertEqual(len(told), 3, out)
        for peer, line in enumerate(told, 1):
            self.assertRegex(line, rf"^peer {peer}: \d+ of 750 frames decode$")
        (page,) = self.room.glob("bar-demo-*/session/timeline.html")
        self.assertEqual(page.read_text("utf-8").count("<figure>"), 4)


if __name__ == "__main__":
    unittest.main()

"""What a drawing shows of reports."""
import os
import sys
import unittest
import xml.etree.ElementTree

HERE = os.path.dirname(os.path.abspath(__file__))
sys.path.insert(0, os.path.dirname(HERE))

import draw_svg
import draw_text
import read_report
import samples
import session


def drawn(name):
    return session.session_of(read_report.parse(samples.ALL[name]))


def marks(found, name):
    """The kind, position and frame of each mark of an actor."""
    return [(mark.kind, mark.at, mark.frame) for track in found.tracks for mark in track.marks if track.name == name]


def bars(found, name):
    return [(bar.kind, bar.first, bar.end) for track in found.tracks for bar in track.bars if track.name == name]


class Sessions(unittest.TestCase):
    def test_an_xrun_is_at_the_position_seen_and_frames_wait_behind_what_was_played(self):
        found = drawn("xrun")
        self.assertEqual(marks(found, "a"), [("open", 0, 0), ("xrun", 512, 512), ("refused", 512, 512)])
        self.assertEqual(bars(found, "a"), [("played", 64, 128), ("waiting", 576, 640)])
        self.assertEqual([(stop.at, stop.phases()) for stop in found.stops], [(0, "0-1"), (512, "2-3"), (544, "4")])

    def test_a_bar_is_divided_where_the_card_stopped(self):
        segment = read_report.Segment("a", 0, 64, 64, 1)
        ends = [(bar.kind, bar.first, bar.end) for bar in session.segment_bars(segment, 100)]
        self.assertEqual(ends, [("played", 64, 100), ("waiting", 100, 129)])

    def test_a_late_commit_is_at_its_frame_with_the_position_then(self):
        self.assertEqual(marks(drawn("late"), "a"), [("open", 0, 0), ("late", 192, 128)])

    def test_a_reader_that_is_overtaken(self):
        found = drawn("overtaken")
        self.assertEqual(marks(found, "r"), [("open", 0, 0), ("overtaken", 320, 64)])
        self.assertEqual(bars(found, "r"), [("taken", 0, 64), ("taken", 384, 448)])
        self.assertEqual([(track.name, track.kind) for track in found.tracks], [("card", "card"), ("r", "reader")])

    def test_openings_closings_and_calls_of_a_closed_client(self):
        found = drawn("refused")
        self.assertEqual(marks(found, "a"), [("open", 0, 0), ("close", 0, 0), ("refused", 128, 128)])
        self.assertEqual(marks(found, "b"), [("opening", 0, 0), ("open", 128, 128)])
        self.assertEqual(marks(found, "c"), [("opening", 0, 0)])
        self.assertEqual([track.opens for track in found.tracks], [[], [(0, 0)], [(128, 128)], []])

    def test_a_client_that_dies_and_a_card_that_is_unplugged(self):
        found, first = drawn("gone"), 1099511627008
        self.assertEqual([kind for kind, *_ in marks(found, "a")], ["open", "stopped"])
        self.assertEqual(marks(found, "b"), [("open", first, first), ("gone", first + 256, first + 256)])
        self.assertEqual(marks(found, "card"), [("unplugged", first + 256, first + 256)])


class Drawings(unittest.TestCase):
    def test_each_kind_of_mark_has_a_shape_and_a_letter(self):
        self.assertEqual(set(draw_svg.SHAPES), set(session.MARKS))
        self.assertEqual(set(draw_text.LETTERS), set(session.MARKS))

    def test_a_picture_is_xml_with_every_actor_mark_and_word_of_the_legend(self):
        for name in samples.ALL:
            found, text = drawn(name), draw_svg.svg_of(drawn(name))
            words = "".join(xml.etree.ElementTree.fromstring(text).itertext())
            for track in found.tracks:
                self.assertIn(track.name, words)
                for mark in track.marks:
                    self.assertIn(mark.note, words)
                    self.assertIn(session.MARKS[mark.kind], words)

    def test_a_picture_has_its_own_colours_on_dark_pages_and_loads_nothing(self):
        text = draw_svg.svg_of(drawn("late"))
        self.assertIn("prefers-color-scheme: dark", text)
        self.assertNotIn("http", text.replace("http://www.w3.org/2000/svg", ""))

    def test_letters_of_a_session(self):
        lines = draw_text.text_of(drawn("late"), 21).splitlines()
        self.assertEqual(lines[1:3], ["card |==============|", "   a [...====L......."])

    def test_steps_of_the_axis_are_round(self):
        steps = [draw_svg.step_of(*it) for it in ((1, 10), (57344, 12), (640, 12), (1000, 10), (2**64, 5))]
        self.assertEqual(steps, [1, 5000, 100, 100, 5 * 10**18])


if __name__ == "__main__":
    unittest.main()

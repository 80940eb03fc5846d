"""The samples that follow from reports, which were worked out by hand."""
import os
import sys
import tempfile
import unittest

HERE = os.path.dirname(os.path.abspath(__file__))
ROOT = os.path.dirname(os.path.dirname(HERE))
sys.path.insert(0, os.path.dirname(HERE))

import cases
import corpus
import expected
import read_report

EXAMPLES = {it.name: it for it in corpus.read(f"{ROOT}/crates/sessions/data/examples.cases").cases}


def with_report(name, ask):
    """What is asked of an example's script, its report and its files in a folder."""
    case = EXAMPLES[name]
    with tempfile.TemporaryDirectory() as room:
        cases.store_all(room, case.files)
        return ask(cases.script_of(case), read_report.parse(case.out.decode()), room)


def played(name):
    return with_report(name, expected.played_samples)


def recorded(name, reader):
    return with_report(name, lambda script, report, room: expected.recorded_samples(script, report, room, reader))


class Samples(unittest.TestCase):
    def test_what_two_clients_place_is_summed_and_saturated(self):
        sums = [0] * 64 + [32760 + frame for frame in range(8)] + [32767] * 56
        self.assertEqual(played("the sum of two clients is saturated"), tuple(sums))

    def test_bindings_exchange_the_channels(self):
        self.assertEqual(played("exchanged channels")[126:132], (0, 0, -1000, 1000, -1001, 1001))

    def test_a_stopped_client_has_placed_a_part_of_a_frame(self):
        self.assertEqual(played("a client that is stopped in the midst of a frame")[126:132], (0, 0, 2000, -1000, 1001, -1001))

    def test_a_reader_has_the_captured_frames_of_its_runs(self):
        self.assertEqual(recorded("a reader that is late", "r"), tuple(range(64)) + tuple(range(384, 448)))

    def test_comments_and_keys_in_any_order_are_read(self):
        script = "# a session\ncard share dmix\tchannels 4\n\nclient a a.wav start 2 bindings 1,0 # crossed\nreader r\n"
        self.assertEqual(expected.card_channels(script), 4)
        self.assertEqual(expected.clients_of(script), {"a": ("a.wav", [1, 0])})
        self.assertEqual(expected.readers_of(script), {"r": [0, 1, 2, 3]})

    def test_a_path_in_place_of_a_script_is_refused(self):
        with self.assertRaisesRegex(expected.NotDerived, "line 1 of the script is refused as Word"):
            with_report("exchanged channels", lambda _, report, room: expected.played_samples(f"{room}/s", report, room))

    def test_a_client_with_a_plug_is_refused(self):
        def ask(script, report, room):
            return expected.played_samples(script.replace("bindings 1,0", "bindings 1,0 plug linear"), report, room)

        with self.assertRaisesRegex(expected.NotDerived, "a has plug"):
            with_report("exchanged channels", ask)

    def test_frames_before_the_card_s_first_one_are_refused(self):
        script = "card channels 1 capture c.wav\nclient a a.wav\nreader r\n"
        row = "dmixlab 1\n0 a open = ok PREPARED -\n"
        with tempfile.TemporaryDirectory() as room:
            cases.store_all(room, {"a.wav": corpus.sound("1 48000 5 6"), "c.wav": corpus.sound("1 48000 7")})
            early = read_report.parse(row + "segment a 0 63 2 0\nplayed 64 64\nend\n")
            with self.assertRaisesRegex(expected.NotDerived, "begins at the card's frame 63, and the first is 64"):
                expected.played_samples(script, early, room)
            for run in ("63 1", "127 2"):
                report = read_report.parse(row + f"run r {run}\nplayed 64 64\nend\n")
                with self.assertRaisesRegex(expected.NotDerived, "frames that the card didn't play"):
                    expected.recorded_samples(script, report, room, "r")

    def test_a_part_of_a_frame_goes_to_its_first_channels(self):
        segment = read_report.Segment("a", 5, 64, 1, 1)
        places = [(5, 1, 64, 0), (5, 0, 64, 1), (6, 1, 65, 0)]
        self.assertEqual(list(expected.places_of(segment, [1, 0])), places)


if __name__ == "__main__":
    unittest.main()

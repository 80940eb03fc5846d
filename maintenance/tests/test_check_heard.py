"""maintenance/check_heard.py compares what was played with the sum of what was written."""
import os
import struct
import sys
import tempfile
import unittest
import wave

ROOT = os.path.join(os.path.dirname(os.path.abspath(__file__)), "..", "..")
sys.path.insert(0, f"{ROOT}/maintenance")
import check_heard
import command


def noise(seed, count):
    """Samples that go with no others."""
    found = []
    for _ in range(count):
        seed = seed * 1103515245 + 12345 & 0x7FFFFFFF
        found.append((seed >> 8) % 40001 - 20000)
    return found


def heard(frames, *parts):
    """So many frames of samples that are added, each list from a frame on, and saturated."""
    mix = [0] * frames
    for start, samples in parts:
        for frame, sample in enumerate(samples, start):
            mix[frame] += sample
    return [max(-32768, min(32767, sample)) for sample in mix]


class CheckHeard(unittest.TestCase):
    def setUp(self):
        self.one, self.other = noise(1, 700), noise(2, 900)

    def test_parts_are_found_where_they_begin(self):
        mix = heard(2000, (512, self.one), (768, self.other))
        self.assertEqual(check_heard.compare([mix], [[self.one], [self.other]]), ([512, 768], 0))

    def test_a_saturated_sum_is_the_sum(self):
        mix = heard(2000, (256, self.one), (256, self.one))
        self.assertIn(32767, mix)
        self.assertEqual(check_heard.compare([mix], [[self.one], [self.one]]), ([256, 256], 0))

    def test_a_sample_that_is_another_is_counted(self):
        mix = heard(2000, (512, self.one))
        mix[700] += 1
        mix[5] = -1
        self.assertEqual(check_heard.compare([mix], [[self.one]]), ([512], 2))

    def test_samples_are_divided_towards_zero(self):
        self.assertEqual(check_heard.divided([5, -5, 4, -1, 0], 2), [2, -2, 2, 0, 0])

    def test_a_file_is_read_with_its_divisor_for_each_channel(self):
        with tempfile.TemporaryDirectory() as room:
            name = f"{room}/one.wav"
            with wave.open(name, "wb") as file:
                file.setparams((1, 2, 48000, 0, "NONE", ""))
                file.writeframes(struct.pack("<3h", 7, -7, 8))
            self.assertEqual(check_heard.read_part(name, 2), [[7, -7, 8]] * 2)
            self.assertEqual(check_heard.read_part(f"{name}/2", 1), [[3, -3, 4]])
            self.assertEqual(check_heard.read_wav(name), [[7, -7, 8]])
            with self.assertRaises(command.Refused):
                check_heard.read_part(f"{room}/none.wav", 1)


if __name__ == "__main__":
    unittest.main()

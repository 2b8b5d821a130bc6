"""A short day of work in a checkout; `days.py` has longer ones."""
import shutil
import unittest

from days import day


@unittest.skipUnless(shutil.which("git"), "no git here")
class Days(unittest.TestCase):
    def test_a_short_day(self):
        for seed in (0, 1):
            with self.subTest(seed=seed):
                states, restarts = day(seed, 40)
                self.assertGreater(states, 20)
                self.assertGreater(restarts, 1)

    def test_a_short_day_over_a_socket(self):
        for seed in (2, 9):
            with self.subTest(seed=seed):
                states, restarts = day(seed, 40, over_socket=True)
                self.assertGreater(states, 20)
                self.assertGreater(restarts, 1)


if __name__ == "__main__":
    unittest.main()

"""Two hundred tests, each of which takes a little while."""
import time
import unittest


class Sums(unittest.TestCase):
    pass


def sum_of(number):
    def test(self):
        time.sleep(0.05)
        self.assertEqual(sum(range(number + 1)), number * (number + 1) // 2)
    return test


for number in range(200):
    setattr(Sums, f"test_{number:03}", sum_of(number))

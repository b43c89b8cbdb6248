"""Pairs of sources of many seeds and sizes."""
import unittest

from program import Folder


class Generated(unittest.TestCase):
    def text_begins(self, words, beginning):
        with Folder() as folder, self.subTest(words=words):
            text = folder.done(*words.split())
            self.assertEqual(text[:len(beginning)], beginning)

    # The numbers of points and edges are worked out in commands/generated.txt.
    def test_the_largest_pair_is_measured(self):
        beginning = "gen seed 7 size 400\nfunctions 401 points 3208 edges 3206 tests 1600\ndangerous 1 "
        self.text_begins("gen 7 400", beginning)

    def test_pairs_of_many_seeds_and_sizes_are_accepted(self):
        for seed in ("0", "3", "1000", "65535"):
            for size in ("1", "5", "40"):
                self.text_begins(f"gen {seed} {size}", f"gen seed {seed} size {size}\n")

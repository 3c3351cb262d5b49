"""The layers of docs/ARCHITECTURE.md are those of crates.txt, and its picture is theirs; `tools/ks make layers`
draws it."""
import unittest

from make import layers


class Layers(unittest.TestCase):
    def test_the_page_and_the_list_of_crates_have_the_same_layers_in_a_good_order(self):
        self.assertEqual(layers.faults(), [])

    def test_the_picture_is_that_of_the_layers(self):
        _, drawn, _ = layers.parts_of_page()
        self.assertEqual(drawn, layers.wanted_picture())

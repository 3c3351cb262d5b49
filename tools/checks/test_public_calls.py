"""docs/CALLS.md is what the sources make: each public call that may refuse, with its clauses; and each that changes
what it is lent has a clause of what stays behind a refusal, or stands in the list of those that have none, with
the reason."""
import unittest

from keystore.harness import check
from make import public_calls


class Page(unittest.TestCase):
    def test_the_page_is_what_the_sources_make(self):
        check(
            "the page's lines",
            public_calls.PAGE.read_text(encoding="utf-8").splitlines(),
            public_calls.page().splitlines(),
        )

    def test_each_reason_is_of_a_call(self):
        bare = [f"{it.crate}::{it.name}" for it in public_calls.all_calls() if it.changes and not it.of_what_was_lent()]
        for key in public_calls.REASONS:
            self.assertTrue([it for it in bare if public_calls.re.fullmatch(key, it)], key)

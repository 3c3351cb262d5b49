"""The books of threads that call one service, beside busy loops, are those of the rules: the second model replays them.

The program of `crates/keystore_threads`, which `rt run` leaves there, is run twenty times beside eight busy loops;
then each reply of a book is changed, one at a time, and no such book passes."""
import unittest

from keystore.cases import HAS_CIPHERS, needs_ciphers, times
from keystore.harness import busy_loops

if HAS_CIPHERS:
    from compare import thread_book

RUNS, BUSY, ROUNDS, THREADS = 20, 8, 3, 8


@needs_ciphers
class ThreadBook(unittest.TestCase):
    def setUp(self):
        self.assertTrue(thread_book.PROGRAM.exists(), f"there is no program yet: run `rt run` in {thread_book.CRATE}")

    def test_books_beside_busy_loops_are_those_of_the_rules(self):
        with busy_loops(BUSY):
            for _ in range(RUNS * times()):
                thread_book.check_book(thread_book.lines_of_run(ROUNDS, THREADS), ROUNDS, THREADS)

    def test_no_book_passes_in_which_one_reply_is_changed(self):
        thread_book.check_changed(thread_book.lines_of_run(ROUNDS, THREADS)[:-1])

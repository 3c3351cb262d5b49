"""Streams of frames that are right, changed, cut, doubled and spliced are answered as the second model answers them.

Ten seconds of a fixed seed, by `tools/ks compare fuzz_frames`, which says what its streams are."""
from compare.fuzz_frames import Fuzz
from keystore.cases import Case, needs_ciphers, times

SEED, SECONDS = 20_261_201, 10


@needs_ciphers
class Fuzzed(Case):
    def test_each_stream_is_answered_as_the_model_answers_it(self):
        fuzz = Fuzz(self.program, self.folder, SEED)
        fuzz.run(SECONDS * times())
        self.assertGreater(fuzz.frames, 0)

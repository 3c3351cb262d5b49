"""What a loss of power may leave of a store is what was acknowledged, or that with the line under way: 2,000 images of
runs over a real file, by `tools/ks compare power_cuts`."""
from compare.power_cuts import sweep
from keystore.cases import Case, needs_ciphers, needs_compiler, times

IMAGES = 2000


@needs_compiler
@needs_ciphers
class PowerCuts(Case):
    def test_the_images_of_each_moment(self):
        sweep(self.program, 1, IMAGES * times())

"""docs/keystore2.1 is what the program's help and version give; `tools/ks make man_page` writes it."""
from keystore.cases import Case
from make.man_page import PAGE, lines_of


class ManPage(Case):
    def test_the_page_is_what_the_help_gives(self):
        self.assertEqual(PAGE.read_text(encoding="utf-8").splitlines(), lines_of(self.program))

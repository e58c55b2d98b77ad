"""Texts of journals beside their captures: what is found of them, and that whatever a run prints is legal."""
import glob
import os

from links import LINKS, realistic
from program import FOLDER, TITLE, ProgramTest, read

# Two edits of a row, with a unit and an opening behind each, in one phase, and a print in which each sees the edit before it.
EDITS = f'''{TITLE}e add 4 0 1 4 4917 400/8/s
m 1 200 5 0900030b0d08120800120494712102420601aa
m 1 200 4 01070000020200081208001204947121
e del 4 0 1 4 4917
m 1 200 5 0900030b0d08120800120494712102420601aa
m 1 200 4 01080000020200081208001204947121
'''

EDITS_PRINTED = '''= control
1.0.10 new e1
1.0.13 new e2
= conn 0
1.1.12 e1 to 400
 > 400 4 01200000020200085208001204947121
1.1.15 e2 to 300
 > 300 4 01400000020200085208001204947121
= data 0
1.1.11 e1 to 400
 > 400 5 0900030b0f0852080012049471210443c8000601aa
1.1.14 e2 to 300
 > 300 5 0900030b0f0852080012049471210443c8000601aa
'''


def busy_links():
    """Units and openings of both links in one phase, with edits beside them."""
    text = LINKS
    for number in range(1, 41):
        link = 1 + number % 2
        text += f'm {link} 200 {number % 16} 0900030b0d08120800120494712102420601{number:02x}\n'
        text += f'm {link} 200 3 01{number:02x}0000020200081208001204947121\n'
        if number % 8 == 0:
            text += 'e add 4 0 1 4 4917 400/8/s\nt\ne del 4 0 1 4 4917\n'
    return text


class Audits(ProgramTest):
    def assert_found(self, capture, text, found):
        self.assert_left('audit', f'{capture}%%%\n{text}', (0 if found == 'legal\n' else 9, found, ''))

    def assert_changes(self, capture, text, changes):
        """What is found of the text as it stands: nothing; and where some of it is changed."""
        self.assert_found(capture, text, 'legal\n')
        for old, new, found in changes:
            with self.subTest(old=old, new=new):
                self.assertIn(old, text)
                self.assert_found(capture, text.replace(old, new), found)

    def assert_legal(self, capture):
        self.assert_found(capture, self.print_of(capture), 'legal\n')

    def test_one_unit(self):
        capture = read('one_unit')
        self.assert_changes(capture, read('one_unit', 'print'), [
            ('e0', 'e1', 'illegal 4 edition\n'),
            ('e0 local 8', 'e0 local 9', 'illegal 4 entry\n'),
            (' e0 local 8', '', 'illegal 4 edition\n'),
            (' aa\n', ' ab\n', 'illegal 4 entry\n'),
            (' < 8 unit 0 4208 4206 aa\n', '', 'illegal 4 entry\n'),
            ('4206 aa\n', '4206 aa\n . state\n', 'illegal 4 entry\n'),
            ('1.1.4 e0 local 8\n < 8 unit 0 4208 4206 aa\n', '', 'illegal 4 order\n'),
            ('1.1.4', '1.1.5', 'illegal 4 order\n'),
            ('1.1.4', '1.2.4', 'illegal 4 order\n'),
            ('1.1.4', '2.1.4', 'illegal 4 order\n'),
            ('1.1.4', '01.1.4', 'illegal 4 form\n'),
            ('e0', 'e00', 'illegal 4 form\n'),
            ('4206 aa\n', '4206 AA\n', 'illegal 5 form\n'),
            ('4206 aa\n', '4206 aa', 'illegal 5 form\n'),
            ('4206 aa\n', '4206 aa\n\n', 'illegal 6 form\n'),
            ('= conn 0\n', '', 'illegal 2 form\n'),
            ('= conn 0\n', '= conn 1\n', 'illegal 2 form\n'),
            ('= conn 0\n', '= conn 0\n%%%\n', 'illegal 3 form\n'),
            ('= data 0\n1.1.4 e0 local 8\n < 8 unit 0 4208 4206 aa\n', '', 'illegal 3 form\n'),
            ('= control\n', '= control\n1.1.4 e0 local 8\n', 'illegal 2 order\n'),
        ])
        self.assert_found(capture, '', 'illegal 1 form\n')

    def test_edits_of_a_phase(self):
        self.assert_changes(EDITS, EDITS_PRINTED, [
            ('new e1', 'new e2', 'illegal 2 entry\n'),
            (' new e2', '', 'illegal 3 entry\n'),
            ('1.1.11 e1 to 400', '1.1.11 e2 to 400', 'illegal 10 entry\n'),
            ('1.1.11 e1 to 400', '1.1.11 e3 to 400', 'illegal 10 edition\n'),
            ('1.1.11 e1 to 400\n > 400 5', '1.1.11 e2 to 300\n > 300 5', 'legal\n'),
            ('1.1.11 e1 to 400\n', '1.1.14 e1 to 400\n', 'illegal 10 order\n'),
        ])

    def test_editions_that_fall(self):
        """The routings of a lane name editions that don't fall."""
        later = EDITS_PRINTED.replace('1.1.11 e1 to 400\n > 400 5', '1.1.11 e2 to 300\n > 300 5')
        self.assert_changes(EDITS, later, [
            ('1.1.14 e2 to 300\n > 300 5', '1.1.14 e1 to 400\n > 400 5', 'illegal 12 edition\n'),
        ])

    def test_edits_between_phases(self):
        self.assert_changes(read('edits_between_phases'), read('edits_between_phases', 'print'), [
            ('2.1.12 e1 to 400', '2.1.12 e0 to 300', 'illegal 6 edition\n'),
            ('2.1.12 e1 to 400', '2.1.12 e2 to 300', 'illegal 6 edition\n'),
            ('2.1.12 e1', '4.1.16 e1', 'illegal 6 edition\n'),
            ('2.1.12 e1', '4.1.16 e2', 'illegal 6 entry\n'),
            ('4.1.16 e2', '2.1.12 e2', 'illegal 8 order\n'),
            ('3.0.14 new', '1.0.14 new', 'illegal 3 order\n'),
        ])

    def test_parting_lines(self):
        """A line `%%%` is one with a carriage return too, and nothing may stand behind it."""
        for text, status, found in [
            ('point = 1\n%%\n%%%\n= control\n= conn 0\n= data 0\n', 0, 'legal\n'),
            ('point = 1\r\n%%\r\n%%%\r\n= control\n= conn 0\n= data 0\n', 0, 'legal\n'),
            ('point = 1\n%%\n%%%\n= control\r\n= conn 0\n= data 0\n', 9, 'illegal 1 form\n'),
            ('point = 1\n%%\n%%%', 9, 'illegal 1 form\n'),
        ]:
            with self.subTest(text=text):
                self.assert_left('audit', text, (status, found, ''))

    def test_prints_are_legal(self):
        """The print of each capture of a folder that runs."""
        for folder in sorted(glob.glob(f'{FOLDER}/*/')):
            if not os.path.exists(f'{folder}/words') and not os.path.exists(f'{folder}/status'):
                with self.subTest(folder=folder):
                    self.assert_legal(read(folder))

    def test_the_realistic_print_is_legal(self):
        self.assert_legal(realistic())

    def test_prints_of_several_links_are_legal(self):
        """Links that run at the same time, in whatever order their lines are delivered."""
        for _ in range(8):
            self.assert_legal(busy_links())

"""Links that run at the same time: units in their order, many connections, and titles while rows are exchanged."""
import re

from program import TITLE, ProgramTest

LINKS = f'links = 2\n{TITLE}'


def connection(number):
    """The link and the local reference of connection 1 to 40, and whether it is of class 3; its peer has its number as reference."""
    return 2 - number % 2, 16 * ((number + 3) // 4) + number % 4, number > 20


def realistic():
    """Forty connections of both classes over two links and four lanes: opened, accepted, with a unit each, ten ticks and an edit, released."""
    lines = ['point = 100', 'users = [8]', 'conn_lanes = 4', 'data_lanes = 2', 'links = 2', '%%']
    each = [(number, *connection(number)) for number in range(1, 41)]
    for number, link, _, is_class_3 in each:
        rest = '03020402420809010700' if is_class_3 else '020200024208'
        lines.append(f'm {link} 200 3 01{number:02x}0000{rest}')
    lines.append('w')
    for _, link, mine, is_class_3 in each:
        lines.append(f'u {link} 8 accept {mine} {"3 7" if is_class_3 else "2 0"} -')
    lines.append('w')
    for number, link, mine, is_class_3 in each:
        kind, head = ('07', '0000') if is_class_3 else ('06', '00')
        lines.append(f'm {link} 200 3 {kind}{mine:02x}0000{head}0101{number:02x}')
    lines += ['w', *['t'] * 10, 'e add 4 0 1 4 49 300/8/s', 'w']
    for number, link, mine, _ in each:
        lines.append(f'm {link} 200 3 04{mine:02x}0000{number:02x}00000000')
    return '\n'.join(lines) + '\n'


# How often two rows are exchanged and put back, and how many titles each of eight links sends.
EXCHANGES = 100
TITLES = 100


def exchanging():
    """Groups of link 0, by which each odd edition leads titles of digits 4917 to point 400, and each even one to point 300; and eight links that send
    such titles all the while."""
    there = 'e begin\ne del 4 0 1 4 49\ne add 4 0 1 4 4917 400/8/s\ne commit\n'
    back = 'e begin\ne del 4 0 1 4 4917\ne add 4 0 1 4 49 300/8/s\ne commit\n'
    titles = ''.join(f'm {link} 200 {link} 0900030b0d08120800120494712102420601aa\n' for link in range(1, 9))
    return f'data_lanes = 2\nlinks = 8\n{TITLE}' + (there + back) * EXCHANGES + titles * TITLES


class Links(ProgramTest):
    def test_two_links(self):
        """Units of two links in one lane: those of link 1 in their order, and none too few or too many."""
        first = ''.join(f'm 1 200 5 0901030b0d08120800120494712102420601{unit}\n' for unit in ('01', '02', '03'))
        others = 'm 2 201 5 0900030b0d08120800120494712102420601aa\n' * 200
        printed = self.print_of(LINKS + first + others)
        self.assert_counts(printed, {' > 300 5 ': 203})
        self.assertEqual(re.findall('^ > 300 5 0901030b0f0852080012049471210443c8000601(.*)$', printed, re.M), ['01', '02', '03'])

    def test_a_realistic_capture(self):
        printed = self.print_of(realistic())
        self.assert_counts(printed, {
            ' > 200 3 02': 40,
            ' > 200 3 08': 20,
            ' > 200 3 05': 40,
            ' > ': 100,
            ' < 8 conn ': 40,
            ' < 8 text ': 40,
            ' < 8 disc ': 40,
            ' < ': 120,
            ' . ': 0,
            '= ': 7,
            # the other lines are the entries; behind the last line end stands an empty one
            '': 231 + 100 + 120 + 7 + 1,
        })

    def test_titles_while_rows_are_exchanged(self):
        """No title is routed by half of a group."""
        printed = self.print_of(exchanging())
        entries = [line for line in printed.split('\n') if line.startswith('1.') and not line.startswith('1.0.')]
        for line in entries:
            edition, point = re.fullmatch(r'1\.[1-8]\.\d+ e(\d+) to (\d+)', line).groups()
            self.assertEqual(point, '400' if int(edition) % 2 == 1 else '300', line)
        self.assertEqual(len(entries), 8 * TITLES)
        self.assert_counts(printed, {'1.0.': 2 * EXCHANGES, ' > ': 8 * TITLES})

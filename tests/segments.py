"""As many messages that are put together as there may be, and as many segments as one is cut into."""
from program import ProgramTest

USER = 'point = 100\nusers = [8]\n%%\n'

# Point 300, to which titles of digits 49 lead, can't take LUDT.
SHORT = '''point = 100
short = [300]
row = [{ gti = 4, np = 1, nai = 4, digits = "49", first = "300/8/s" }]
%%
'''


def first_segment(number):
    """The first of three segments for subsystem 8, with return, under this reference."""
    return f'11810f0406080902420802420601611004c2{number.to_bytes(3, "little").hex()}00'


def returned(cause, number):
    """What comes of it where it is returned to point 200."""
    return f'\n > 200 5 12{cause}0f0406080902420602420801611004c2{number.to_bytes(3, "little").hex()}00'


def long_message(size):
    """An LUDT of so many octets to a title."""
    return f'm 1 200 5 13000f07000e000f000000081208001204947121024206{size.to_bytes(2, "little").hex()}{"61" * size}\n'


class Segments(ProgramTest):
    def assert_units(self, capture, wanted):
        """Compares the entries of the data lane."""
        self.assertEqual(self.print_of(capture).split('= data 0\n')[1], '\n'.join(wanted) + '\n')

    def test_the_most_reassemblies(self):
        """The 257th is returned, and a first segment that comes again ends the one before it. All fail at the last tick, in the order in which they began."""
        numbers = [*range(257), 7]
        arrived = [f'1.1.{line} e0 local 8' for line in range(4, 262)]
        arrived[256] += returned('09', 256)
        arrived[257] += returned('0e', 7)
        ticks = [f'2.0.{line}' for line in range(263, 279)]
        ticks[14] += ''.join(returned('0e', number) for number in [*range(7), *range(8, 256), 7])
        text = ''.join(f'm 1 200 5 {first_segment(number)}\n' for number in numbers)
        self.assert_units(f'{USER}{text}w\n' + 't\n' * 16, arrived + ticks)

    def test_the_most_segments(self):
        """An LUDT for a point that can't take it is cut into 16 segments, and one that would need 17 is lost."""
        cut = ['1.1.5 e0 to 300']
        for remaining in range(15, -1, -1):
            head = 128 + 15 if remaining == 15 else remaining
            cut.append(f' > 300 5 11010e040c10ff0852080012049471210443c80006ef{"61" * 239}1004{head:02x}00000000')
        self.assert_units(SHORT + long_message(16 * 239) + long_message(16 * 239 + 1), [*cut, '1.1.6 e0 to 300', ' . cause 14'])

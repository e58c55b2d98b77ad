"""The slots of a lane, a reference that is frozen, and a connection that falls silent."""
from program import TITLE, ProgramTest, count_of

USER = 'point = 100\nusers = [8]\n%%\n'


def openings(count):
    """CRs of point 200 for subsystem 8, under so many source local references."""
    return ''.join(f'm 1 200 4 01{number.to_bytes(2, "little").hex()}01020200024208\n' for number in range(count))


# Where one slot is free, a connection that takes two is refused, one that takes it is opened, and the next one is refused.
LAST = '''m 1 200 4 01070000020200081208001204947121
m 1 200 4 01080000020200024208
m 1 200 4 01090000020200024208
'''


class Slots(ProgramTest):
    def test_a_full_lane(self):
        printed = self.print_of(TITLE + openings(4094) + LAST)
        self.assert_counts(printed, {
            ' < 8 conn ': 4095,
            ' < 8 conn 65504 ': 1,
            ' < 8 conn 65520 ': 1,
            ' > 200 4 030700000700': 1,
            ' > 200 4 030900000700': 1,
            ' > ': 2,
        })

    def print_after(self, ticks, before, behind=''):
        """The print of a node with user 8 that runs one exchange, so many ticks, and another exchange behind them."""
        return self.print_of(USER + before + 'w\n' + 't\n' * ticks + 'w\n' + behind)

    def test_a_frozen_reference(self):
        """The slot of a connection that was refused is given to the next one after 60 ticks, and not before."""
        refused = 'm 1 200 3 01010000020200024208\nu 1 8 refuse 16 3 -\n'
        following = 'm 1 200 3 01020000020200024208\n'
        for ticks, count in [(59, 0), (60, 1)]:
            with self.subTest(ticks=ticks):
                self.assertEqual(count_of(self.print_after(ticks, refused, following), ' < 8 conn 65552 '), count)

    def test_the_turns_of_a_slot(self):
        """A slot that is taken again and again has 255 references one after another, and then the first again."""
        text = 'point = 100\nusers = [8]\n[timers]\nfreeze = 1\n%%\n'
        for turn in range(256):
            reference = turn % 255 * 65536 + 16
            text += f'm 1 200 3 01010000020200024208\nu 1 8 refuse {reference} 3 -\nw\nt\nw\n'
        self.assert_counts(self.print_of(text), {
            ' < 8 conn 16 ': 2,
            ' < 8 conn 65552 ': 1,
            ' < 8 conn 16646160 ': 1,
            ' > 200 3 030100000300': 256,
        })

    def test_a_silent_connection(self):
        """A connection on which nothing comes is tested (IT) each 420 ticks, and released (RLSD) after 900."""
        opened = 'm 1 200 3 01010000020200024208\nu 1 8 accept 16 2 0 -\n'
        for ticks, tests, releases in [(419, 0, 0), (420, 1, 0), (839, 1, 0), (840, 2, 0), (899, 2, 0), (900, 2, 1)]:
            with self.subTest(ticks=ticks):
                self.assert_counts(self.print_after(ticks, opened), {' > 200 3 10': tests, ' > 200 3 04': releases})

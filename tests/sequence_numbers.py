"""The sequence numbers of a connection of class 3, which begin anew at 128."""
from program import ProgramTest

# A connection of user 8 with a credit of 127 either way.
OPENING = '''point = 100
users = [8]
credit = 127
%%
u 1 8 conn 7 3 127 43c8000a -
m 1 200 7 02100000550000030109017f00
'''

OPENED = '''= control
= conn 0
1.1.5 e0 to 200
 < 8 ref 7 16
 > 200 7 011000000302060443c8000a09017f0402420811010f00
1.1.6
 < 8 confirm 16 3 127 - -
'''


class SequenceNumbers(ProgramTest):
    def test_units_both_ways(self):
        """130 units of the user and as many for it, each of which is acknowledged before the next."""
        capture, printed = OPENING, OPENED
        for unit in range(130):
            line = 7 + 3 * unit
            # P(S) and P(R) stand from bit 2 of their octets on
            this, following = unit % 128 * 2, (unit + 1) % 128 * 2
            capture += f'u 1 8 send 16 {unit:02x}\n'
            capture += f'm 1 200 7 08100000{following:02x}7f\n'
            capture += f'm 1 200 7 07100000{this:02x}{following:02x}0101{unit:02x}\n'
            printed += f'1.1.{line}\n > 200 7 07550000{this:02x}{this:02x}0101{unit:02x}\n'
            printed += f'1.1.{line + 1}\n'
            printed += f'1.1.{line + 2}\n < 8 text 16 {unit:02x}\n > 200 7 08550000{following:02x}7f\n'
        self.assertEqual(self.print_of(capture), f'{printed}= data 0\n')

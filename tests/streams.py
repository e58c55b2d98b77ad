"""Streams of M3UA messages behind a head, and what they come to."""
from program import ProgramTest, run

HEAD = 'point = 100\nusers = [8]\n%%\n'

# From point 200 to point 100, with the link selection 5: a UDT for subsystem 8.
UNIT = ('\x01\x00\x01\x01\x00\x00\x00\x28\x02\x10\x00\x1d\x00\x00\x00\xc8\x00\x00\x00\x64\x03\x00\x00\x05'
        '\x09\x00\x03\x05\x07\x02\x42\x08\x02\x42\x06\x01\xaa\x00\x00\x00')

# The same for subsystem 9, with return on error.
UNEQUIPPED = ('\x01\x00\x01\x01\x00\x00\x00\x28\x02\x10\x00\x1d\x00\x00\x00\xc8\x00\x00\x00\x64\x03\x00\x00\x05'
              '\x09\x80\x03\x05\x07\x02\x42\x09\x02\x42\x06\x01\xaa\x00\x00\x00')

# The UDTS that comes back, from point 100 to point 200.
RETURNED = ('\x01\x00\x01\x01\x00\x00\x00\x28\x02\x10\x00\x1d\x00\x00\x00\x64\x00\x00\x00\xc8\x03\x00\x00\x05'
            '\x0a\x04\x03\x05\x07\x02\x42\x06\x02\x42\x09\x01\xaa\x00\x00\x00')

# To point 100 with the link selection 5: no octets of SCCP.
BARE = '\x01\x00\x01\x01\x00\x00\x00\x18\x02\x10\x00\x10\x00\x00\x00\xc8\x00\x00\x00\x64\x03\x00\x00\x05'

EMPTY = '= control\n= conn 0\n= data 0\n'
PRINTED = EMPTY + '1.1.1 e0 local 8\n < 8 unit 0 4208 4206 aa\n'


class Streams(ProgramTest):
    def test_streams(self):
        """Streams with their prints and frames, and the order in which an input is refused."""
        cut = UNIT[:20]
        for words, text, wanted in [
            ('m3ua', HEAD + UNIT, (0, PRINTED, '')),
            ('m3ua frames', HEAD + UNIT, (0, '', '')),
            ('m3ua frames', HEAD + UNEQUIPPED, (0, RETURNED, '')),
            ('m3ua', HEAD, (0, EMPTY, '')),
            ('m3ua', HEAD + cut, (8, '', 'port 1 end\n')),
            ('m3ua frames', HEAD + cut, (8, '', 'port 1 end\n')),
            ('m3ua', 'point = 100\n%%', (2, '', 'head end -\n')),
            ('m3ua', 'users = [8]\n%%\n' + cut, (2, '', 'head missing point\n')),
            ('m3ua', 'point = 100\n%%\r\n\r\n', (8, '', 'port 1 version\n')),
            ('m3ua print', HEAD + UNIT, (1, '', 'usage\n')),
            ('m3ua frames x', HEAD + UNIT, (1, '', 'usage\n')),
        ]:
            with self.subTest(words=words, text=text):
                self.assert_left(words, text, wanted)

    def test_heads_of_more_links(self):
        """More links than one, tested at their place among the keys."""
        for head, notes in [
            ('point = 100\nlinks = 2\n%%\n', 'head range links\n'),
            ('point = 100\nlinks = 9\n%%\n', 'head range links\n'),
            ('credit = 0\nlinks = 2\npoint = 100\r\n%%\r\n', 'head range links\n'),
            ('point = 100\nlinks = 2\ntimers = 1\n%%\n', 'head range links\n'),
            ('point = 100\nlinks = 1\ncredit = 0\n%%\n', 'head range credit\n'),
            ('point = 100\nlinks = 2\ncolour = 1\n%%\n', 'head unknown colour\n'),
            ('point = 100\nlinks = 2\ndata_lanes = 0\n%%\n', 'head range data_lanes\n'),
            ('links = 2\n%%\n', 'head missing point\n'),
            ('point = 100\nlinks = true\n%%\n', 'head kind links\n'),
        ]:
            with self.subTest(head=head):
                self.assert_left('m3ua', head + UNIT, (2, '', notes))

    def test_faulty_messages(self):
        """Each fault of a message, behind one that is whole."""
        for message, notes in [
            ('\x02', 'port 2 version\n'),
            ('\x01\x00\x00\x01\x00\x00\x00\x07', 'port 2 length\n'),
            ('\x01\x00\x01\x01\x00\x02\x00\x01', 'port 2 length\n'),
            ('\x01\x00\x01\x01\x00\x00\x00\x18', 'port 2 end\n'),
            ('\x01\x00\x01\x01\x00\x00\x00\x0b\x02\x10\x00', 'port 2 parameter\n'),
            ('\x01\x00\x01\x01\x00\x00\x00\x0c\x02\x10\x00\x03', 'port 2 parameter\n'),
            ('\x01\x00\x01\x01\x00\x00\x00\x0c\x02\x10\x00\x05', 'port 2 parameter\n'),
            ('\x01\x00\x01\x01\x00\x00\x00\x08', 'port 2 missing\n'),
            ('\x01\x00\x01\x01\x00\x00\x00\x0c\x00\x06\x00\x04', 'port 2 missing\n'),
            ('\x01\x00\x01\x01\x00\x00\x00\x0c\x02\x10\x00\x04', 'port 2 short\n'),
            ('\x01\x00\x01\x01\x00\x00\x00\x18\x02\x10\x00\x10\x00\x00\x00\xc8\x00\x00\x00\x64\x03\x00\x00\x10', 'port 2 range\n'),
            ('\x01\x00\x01\x01\x00\x00\x00\x18\x02\x10\x00\x10\x00\x00\x40\x00\x00\x00\x00\x64\x03\x00\x00\x05', 'port 2 range\n'),
        ]:
            with self.subTest(message=message):
                self.assert_left('m3ua', HEAD + UNIT + message, (8, '', notes))

    def test_many_messages(self):
        """A stream of several pieces, whose messages do not end where the pieces do: all of them are taken, in one phase, and all are answered."""
        stream = HEAD + UNEQUIPPED * 1000
        self.assert_left('m3ua frames', stream, (0, RETURNED * 1000, ''))
        printed = run('m3ua', stream).print
        self.assert_counts(printed, {'1.1.': 1000, '1.1.1000 ': 1})

    def test_the_most_events(self):
        """The 200,001st event passes the limit, and a fault before it comes first."""
        stream = HEAD + BARE * 200_000
        self.assert_left('m3ua', stream + '\x02', (8, '', 'port 200001 version\n'))
        self.assert_left('m3ua', stream + BARE + '\x02', (4, '', 'too long lines\n'))

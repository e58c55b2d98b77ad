"""Inputs of as many octets as may be, and of one more."""
from program import ProgramTest

MOST_OCTETS = 67_108_864


def filled(text, size):
    """The text, and a comment behind it, in so many octets."""
    return text.ljust(size, '#')


class Lengths(ProgramTest):
    def test_the_longest_input(self):
        head = 'point = 1\n%%\n'
        self.assert_left('run', filled(head, MOST_OCTETS), (0, '= control\n= conn 0\n= data 0\n', ''))
        self.assert_left('run', filled(head, MOST_OCTETS + 1), (4, '', 'too long bytes\n'))

    def test_the_longest_text(self):
        """The text of a journal counts for the limit of octets."""
        text = 'point = 1\n%%\n%%%\n= control\n= conn 0\n= data 0\n'
        self.assert_left('audit', filled(text, MOST_OCTETS + 1), (4, '', 'too long bytes\n'))

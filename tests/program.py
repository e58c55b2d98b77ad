"""The program over words and an input, and what it leaves; `tools/run_made` says which program that is."""
import os
import subprocess
import typing
import unittest

FOLDER = os.path.dirname(os.path.abspath(__file__))

# The program, as `tools/run_made` found it, and how long a run of it may take.
path = ''
SECONDS = 600

# The head of a node with user 8, and a row that sends titles of digits 49 to point 300.
TITLE = '''point = 100
users = [8]
[[row]]
gti = 4
np = 1
nai = 4
digits = "49"
first = "300/8/s"
%%
'''


class Left(typing.NamedTuple):
    status: int
    print: str
    notes: str


def run(words, text):
    """What the program leaves with these words, parted by spaces. An octet is the character of its number."""
    ended = subprocess.run([path, *words.split()], input=text.encode('latin-1'), capture_output=True, timeout=SECONDS)
    return Left(ended.returncode, ended.stdout.decode('latin-1'), ended.stderr.decode('latin-1'))


def read(name, what='capture'):
    """A file of a folder of tests."""
    with open(os.path.join(FOLDER, name, what), encoding='latin-1', newline='') as file:
        return file.read()


def count_of(text, start):
    """How many lines begin so."""
    return sum(line.startswith(start) for line in text.split('\n'))


class ProgramTest(unittest.TestCase):
    maxDiff = 2000

    def assert_left(self, words, text, wanted):
        self.assertEqual(run(words, text), Left(*wanted))

    def print_of(self, capture):
        """The print of a capture, whose run ends well."""
        left = run('run', capture)
        self.assertEqual(left._replace(print=''), Left(0, '', ''))
        return left.print

    def assert_counts(self, text, counts):
        """Compares how many lines begin so, for each start."""
        self.assertEqual({start: count_of(text, start) for start in counts}, counts)

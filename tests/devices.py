"""Standard streams that fail."""
import os
import subprocess

import program
from program import FOLDER, Left, ProgramTest

EMPTY = b'point = 1\n%%\n'


def run_over(**streams):
    """What `run` leaves over these streams. What goes elsewhere is empty."""
    ended = subprocess.run([program.path, 'run'], stderr=subprocess.PIPE, timeout=program.SECONDS, **streams)
    return Left(ended.returncode, (ended.stdout or b'').decode('latin-1'), ended.stderr.decode('latin-1'))


class Devices(ProgramTest):
    def test_an_input_that_cannot_be_read(self):
        """A folder in the place of a file."""
        folder = os.open(FOLDER, os.O_RDONLY)
        self.addCleanup(os.close, folder)
        self.assertEqual(run_over(stdin=folder, stdout=subprocess.PIPE), Left(5, '', 'read fault\n'))

    def test_a_device_that_is_full(self):
        with open('/dev/full', 'wb') as full:
            self.assertEqual(run_over(input=EMPTY, stdout=full), Left(6, '', 'write fault\n'))

    def test_an_output_that_nobody_reads(self):
        reader, writer = os.pipe()
        os.close(reader)
        with open(writer, 'wb') as unread:
            self.assertEqual(run_over(input=EMPTY, stdout=unread), Left(6, '', 'write fault\n'))

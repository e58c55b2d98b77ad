"""Nodes in a row: two users at the ends of eight, who give each other texts while messages pass in an order of no plan."""
from program import ProgramTest, run

FORWARD = [f'd {node} f' for node in range(1, 8)]
BACK = [f'd {node} b' for node in range(8, 1, -1)]

# A connection of class 3 with a credit of 2 from node 1 to node 8.
OPENING = ['u 1 conn 5 3 2 -', *FORWARD, 'u 8 accept 16 3 2 -', *BACK]

# How many steps the users talk, and how often behind them a message passes on each way, until none waits.
TALK = 6000
PASSAGES = 400


def draws(count):
    """So many numbers below 20, which follow each other by a linear congruence."""
    last = 1
    for _ in range(count):
        last = (1103515245 * last + 12345) % 2147483648
        yield last // 65536 % 20


def talk():
    """Steps by which a message passes on one of the fourteen ways, or a user gives a text: three octets, or 300 in every tenth step, which are two units."""
    for step, draw in enumerate(draws(TALK)):
        if draw < 14:
            yield (FORWARD + BACK)[draw]
        else:
            yield f'u {1 if draw < 17 else 8} send 16 ' + f'{step:06x}' * (100 if step % 10 == 0 else 1)


class Nodes(ProgramTest):
    def test_texts_over_eight_nodes(self):
        """Each user is told the texts of the other, whole and in order, but those that were refused, since too many units waited."""
        lines = ['nodes 8', *OPENING, *talk(), *(FORWARD + BACK) * PASSAGES]
        left = run('chain', '\n'.join(lines) + '\n')
        self.assertEqual(left._replace(print=''), (0, '', ''))
        *told, waiting = left.print.splitlines()
        self.assertEqual(waiting, 'waiting 0')
        told = [(int(line), int(node), words) for line, node, *words in map(str.split, told)]
        refused = {line for line, _, words in told if words == ['no', 'full']}
        for node, other in [(1, 8), (8, 1)]:
            with self.subTest(node=node):
                asked = {line: step.split()[-1] for line, step in enumerate(lines, 1) if step.startswith(f'u {node} send ')}
                given = [text for line, text in asked.items() if line not in refused]
                self.assertEqual([words[-1] for _, at, words in told if at == other and words[0] == 'text'], given)
                self.assertLess(200, len(given))
                self.assertLess(len(given), len(asked))

"""The lines of the oracle's cases and answers, as README.md has them, for the scripts beside this file."""
import os, struct, subprocess

ROOT = os.path.dirname(os.path.dirname(os.path.abspath(__file__)))
ORACLE = os.path.join(ROOT, 'beside', 'build', 'oracle')
EARLY = (1, 2, 3, 4, 5, 10)  # refusals that leave the work slots as they were


def ask(args, text=''):
    return subprocess.run([ORACLE] + args, input=text, capture_output=True, text=True, check=True).stdout.split('\n')[:-1]


class Words:
    """The words of a case, taken in order."""

    def __init__(self, line):
        self.words, self.at = line.split(), 0

    def word(self):
        self.at += 1
        return self.words[self.at - 1]

    def number(self):
        return int(self.word())

    def float(self):
        return int(self.word(), 16)

    def list(self):
        return [self.float() for _ in range(self.number())]

    def particles(self):
        return [tuple(self.float() for _ in range(4)) + (self.number(),) for _ in range(self.number())]

    def force(self):
        kind = self.word()
        if kind == 'M':
            return kind, self.list()
        if kind == 'C':
            return kind, self.float(), self.number(), self.list()
        if kind == 'L':
            iterations = self.number()
            links = [(self.number(), self.number()) for _ in range(self.number())]
            return kind, iterations, links, self.list(), self.list()
        if kind == 'E':
            return kind, self.float(), self.float(), self.float()
        if kind == '?':
            return kind, self.number()
        return (kind,)


def cut(line, most_slots, most_draws):
    """The case with so many slots and draws at most."""
    t = Words(line)
    kind = t.word()
    words = t.words
    if kind in ('tree', 'force', 'tick', 'step'):
        words[1] = str(min(int(words[1]), most_slots))
    if kind in ('force', 'tick', 'step'):
        t.number()
        if kind == 'force':
            t.force(), t.float(), t.particles()
        else:
            [t.float() for _ in range(4 if kind == 'tick' else 5)]
            if kind == 'step':
                t.number()
            t.particles(), [t.force() for _ in range(8)]
        at = t.at
        draws = t.list()[:most_draws]
        words = words[:at] + [str(len(draws))] + ['%016x' % d for d in draws]
    return ' '.join(words)


def sheet(ps):
    return [b for p in ps for v in p for b in struct.pack('<Q', v)]


def slot_lists(forces, unused):
    """What is lent for force slots: seven words a slot, with `unused()` where a kind looks at none; numbers and link ends, end to end."""
    entries, values, links = [], [], []
    for force in forces:
        entry = [None] * 7
        if force[0] == '-':
            entry[0] = 0
        elif force[0] == 'M':
            entry[0] = 1
            values += force[1]
        elif force[0] == 'C':
            entry[0], entry[1], entry[4] = 2, force[2], force[1]
            values += force[3]
        elif force[0] == 'L':
            entry[0], entry[1], entry[2], entry[3] = 3, force[1], len(force[2]), len(force[3])
            links += [end for link in force[2] for end in link]
            values += force[3] + force[4]
        elif force[0] == 'E':
            entry[0], entry[4:7] = 4, force[1:4]
        else:
            entry[0] = force[1]
        entries += [unused() if word is None else word for word in entry]
    return entries, values, links


# ---- answers


def hexes(text):
    return [int(w, 16) for w in text.split()]


def refusal(answer):
    words = answer.split()
    return (0, 0) if words[0] == 'ok' else (int(words[1]), int(words[2]))


def moved(ps, answer):
    values = hexes(answer.split('|')[1])
    return [tuple(values[4 * i : 4 * i + 4]) + (p[4],) for i, p in enumerate(ps)]

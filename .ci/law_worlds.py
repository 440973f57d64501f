"""Small drawn worlds, and what the program says of them, for the script `laws` beside it."""
import itertools
import json
import os
import re
import subprocess

from model import Model

WHOLE, HALF, ADDRESS = '10.0.0.0/8', '10.128.0.0/9', '10.128.0.1'
MARKING = ['otc', 'drop-invalid+otc']
DROPPING = ['drop-invalid', 'drop-invalid+otc']
KINDS = ['plain', 'prefer-valid', 'provider-first'] + MARKING + ['drop-invalid']
MORE = {'plain': 'drop-invalid', 'otc': 'drop-invalid+otc'}
OUTSIDE = 99
SECONDS = 60
# Small worlds in which a premise matters, as lines of a relationship file: most are those of examples/laws.
FAN = [(5, 1, -1), (1, 4, -1), (4, 5, 0), (7, 6, -1)] + [(above, low, -1) for low in (3, 10, 11, 12) for above in (5, 6)]
HARM = [(2, 6, -1), (3, 2, -1), (3, 1, -1), (4, 1, -1), (4, 5, -1), (3, 6, 0)]
DEAF = [(3, 2, -1), (2, 1, -1), (2, 9, -1)]
LOOP = [(5, 1, -1), (5, 2, -1), (1, 3, -1), (2, 3, -1), (1, 6, -1), (6, 4, -1), (2, 4, -1)]
CIRCLE = [(1, 2, -1), (2, 3, -1), (3, 1, -1), (3, 4, -1), (1, 5, -1), (5, 6, -1), (6, 7, -1)]


class World:
    """A world, as model.py reads it."""

    def __init__(self, links):
        self.cast = sorted({asn for link in links for asn in link[:2]})
        self.links = {(min(a, b), max(a, b)): a if kind else 0 for a, b, kind in links}
        self.kinds, self.payloads, self.announced, self.leaks = {}, set(), {}, []
        self.watch, self.prefixes = [ADDRESS], [WHOLE]

    def ases(self):
        return set(self.cast)

    def is_to(self, asn, other):
        """What the other AS is to the AS."""
        pair = min(asn, other), max(asn, other)
        if pair not in self.links:
            return None
        provider = self.links[pair]
        return 'peer' if not provider else 'customer' if provider == asn else 'provider'

    def near(self, asn):
        return [other for other in self.cast if other != asn and self.is_to(asn, other)]

    def announcers(self, prefix=WHOLE):
        return {asn for of, asn in self.announced if of == prefix}

    def kind(self, asn):
        return self.kinds.get(asn, 'plain')

    def drops(self, asn):
        return self.kind(asn) in DROPPING

    def is_invalid(self, path, prefix=WHOLE):
        return Model(self).state(prefix, path[-1]) == 'invalid'

    def offenders(self):
        return {asn for asn in self.announcers() if self.is_invalid(self.announced[WHOLE, asn])}

    def ends(self, asn, passes=lambda other: True, descent=False):
        """The ASes to which a way without a valley leads from the AS, or a descent, along ASes that pass."""
        seen, waiting = set(), [(asn, not descent)] if passes(asn) else []
        while waiting:
            at, may_climb = waiting.pop()
            if (at, may_climb) in seen:
                continue
            seen.add((at, may_climb))
            for other in self.near(at):
                relation = self.is_to(at, other)
                if passes(other) and (may_climb or relation == 'customer'):
                    waiting.append((other, may_climb and relation == 'provider'))
        return {at for at, _ in seen}

    def has_no_valley(self, path):
        relations = [self.is_to(one, other) for one, other in zip(path, path[1:])]
        climbed = list(itertools.dropwhile(lambda it: it == 'provider', relations))
        return None not in climbed and all(it == 'customer' for it in climbed[1:])

    def texts(self, draw):
        links = [(provider, sum(pair) - provider, -1) if provider else (*pair, 0) for pair, provider in self.links.items()]
        announced = [{'prefix': prefix, 'as': asn, 'path': path} for (prefix, asn), path in self.announced.items()]
        policies = [{'as': asn, 'policy': kind} for asn, kind in self.kinds.items()]
        payloads = ['AS%d,%s,%d,test' % it for it in self.payloads]
        for lines in (links, announced, policies, payloads):
            draw.shuffle(lines)
        plan = {'announcements': announced, 'policies': policies, 'leaks': self.leaks, 'watch': self.watch}
        return {'links': ''.join('%d|%d|%d\n' % it for it in links), 'scenario': json.dumps(plan),
                'payloads': '\n'.join(['ASN,IP Prefix,Max Length,Trust Anchor'] + payloads) + '\n'}


def drawn(draw, kinds=None, count=None, forged=0, few=1):
    """A world of few ASes, of which one or two announce the whole prefix, by a forged path with this probability; few links
    are drawn where few is small."""
    cast = draw.sample(range(1, 40), count or draw.randint(3, 7))
    links = []
    for one, other in itertools.combinations(cast, 2):
        lot = draw.random() / few
        links += [(one, other, -1)] if lot < 0.35 else [(one, other, 0)] if lot < 0.5 else []
    world = World(links or [(cast[0], cast[1], -1)])
    some = kinds or draw.choice([KINDS, ['plain', 'drop-invalid'], ['plain', 'otc']])
    world.kinds = {asn: draw.choice(some) for asn in world.cast}
    for asn in draw.sample(world.cast, draw.randint(1, 2)):
        more = draw.choice([[OUTSIDE], [asn], [draw.choice(world.cast)]]) if draw.random() < forged else []
        world.announced[WHOLE, asn] = [asn] + more
    return world


def around(draw, links, count=2):
    """A world around these links: its numbers are others in the same order, and up to so many ASes more buy from some of it."""
    cast = sorted({asn for link in links for asn in link[:2]})
    more = draw.randint(0, count)
    numbers = sorted(draw.sample(range(1, 60), len(cast)))
    now = dict(zip(cast, numbers))
    found = [(now[one], now[other], kind) for one, other, kind in links]
    return World(found + [(draw.choice(numbers), 60 + at, -1) for at in range(more)]), now


def with_states(draw, world, chosen=None):
    """Payloads of the whole prefix: of the chosen ASes, or of some drawn ones, by which all others are invalid."""
    some = chosen if chosen is not None else [asn for asn in world.cast + [OUTSIDE] if draw.random() < 0.4]
    world.payloads = {(asn, WHOLE, 8) for asn in some}
    return world


def with_leaks(draw, world, rounds=2):
    world.leaks = [draw.sample(world.cast, draw.randint(1, min(2, len(world.cast)))) for _ in range(rounds)]
    return world


def with_more(draw, world, passes=lambda asn: True):
    """The ASes that begin to drop, each with its new kind."""
    return {asn: MORE[kind] for asn, kind in sorted(world.kinds.items()) if kind in MORE and passes(asn) and draw.random() < 0.5}


class Asker:
    """Runs the program over the files of a world."""

    def __init__(self, program, folder):
        self.program, self.folder = program, folder

    def run(self, texts, option, given):
        for name, text in {**texts, 'given': given}.items():
            with open(os.path.join(self.folder, name), 'w') as file:
                file.write(text)
        words = [self.program, 'links', '--vrps', 'payloads', '--scenario', 'scenario', option, 'given']
        done = subprocess.run(words, cwd=self.folder, stdin=subprocess.DEVNULL, capture_output=True, text=True, timeout=SECONDS)
        return done.returncode, done.stdout, done.stderr

    def answers(self, texts, lines):
        """The answer to each line of a script, none of which may be refused."""
        status, out, err = self.run(texts, '--script', ''.join(line + '\n' for line in lines))
        if status:
            raise AssertionError('status %d: %s%s' % (status, out, err))
        return re.split(r'^# .*\n', out, flags=re.M)[1:]

    def tables(self, draw, world, lines):
        """The tables of those lines that ask for one."""
        found = self.answers(world.texts(draw), lines)
        return [table(text) for text, line in zip(found, lines) if line.startswith('routes')]


def table(text):
    """What each AS holds: class, path and mark."""
    held = {}
    for line in text.splitlines():
        cells = line.split('|')
        if cells[1] != 'none':
            held[int(cells[0])] = (cells[1], [int(it) for it in cells[2].split()], cells[3] if cells[3:] else '')
    return held

#!/usr/bin/env python3
"""Draws attackers and victims, and counts how many ASes each attack gets while so many ASes adopt a policy.

    python -m asprop_study LINKS [OPTION]..

The options are what asprop.study is given, and `--help` lists them.  A table of the means is printed, and how many ASes
half the width of their 95 % intervals is.
"""
from __future__ import annotations

import argparse
import concurrent.futures
import csv
import hashlib
import operator
import os
import random
import re
import shutil
import statistics
import subprocess
import sys
import tempfile
import time
import warnings
from dataclasses import astuple, dataclass, fields
from typing import Dict, Iterable, Iterator, List, Optional, Sequence, TextIO, Tuple, Union

import asprop
from asprop import Announcement, Counts, Script, Sweep, Validity, World


#: The kinds of attacks of a study: what each AS announces, and the policy that adopters have if a study names none.
ATTACKS = {'same-prefix': 'drop-invalid', 'sub-prefix': 'drop-invalid', 'forged-origin': 'drop-invalid', 'leak': 'otc'}
#: The victim's prefix in a study, the half that a sub-prefix hijack takes, and an address in that half.
PREFIX, HALF, ADDRESS = '10.0.0.0/8', '10.128.0.0/9', '10.128.0.1'
#: At most so many numbers of adopters stand in a line of sweeps, and so many lines in a script.
_IN_A_LINE, _IN_A_SCRIPT = 32, 100000


@dataclass(frozen=True)
class Row:
    """A trial of a study: the number of its pair, the kind of the attack, the attacker and the victim, the seed of the draws of
    adopters, how many ASes adopt, the number of the trial, and how many ASes have their packets delivered at the attacker, at
    the victim, and nowhere.

    Of a leak these are the ASes that have the leaker on their path, those that have another route, and those without one.
    """
    pair: int
    kind: str
    attacker: int
    victim: int
    draw: int
    adopters: int
    trial: int
    to_attacker: int
    to_victim: int
    nowhere: int


@dataclass(frozen=True)
class Mean:
    """For a kind and a number of adopters how many ASes the attacker gets: the mean of all trials, and half the width of the
    95 % interval of that mean, which goes by how the pairs differ.
    """
    kind: str
    adopters: int
    mean: float
    half: float


@dataclass(frozen=True)
class _Task:
    pair: int
    kind: str
    attacker: int
    victim: int
    draw: int

    def row(self, adopters: int, trial: int, ases: int, to_attacker: int, nowhere: int) -> Row:
        return Row(self.pair, self.kind, self.attacker, self.victim, self.draw, adopters, trial,
                   to_attacker, ases - to_attacker - nowhere, nowhere)


@dataclass(frozen=True)
class _Plan:
    """What all tasks of a study share."""
    links: str
    payloads: Optional[str]
    policy: Optional[str]
    order: str
    largest: Sequence[int]
    adopters: Sequence[int]
    trials: int
    program: Optional[str]

    def adopted(self, kind: str) -> str:
        return self.policy or ATTACKS[kind]

    def world(self, task: _Task, payloads: Optional[str] = None, adopters: Sequence[int] = ()) -> World:
        announced: List[Announcement] = [(PREFIX, task.victim)]
        if task.kind == 'forged-origin':
            announced.append((PREFIX, task.attacker, [task.attacker, task.victim]))
        elif task.kind != 'leak':
            announced.append((HALF if task.kind == 'sub-prefix' else PREFIX, task.attacker))
        return World(self.links, announced, payloads, dict.fromkeys(adopters, self.adopted(task.kind)),
                     [[task.attacker]] if task.kind == 'leak' else [], [ADDRESS])

    def rows(self, task: _Task) -> List[Row]:
        """The rows of a task, by trials in each number of adopters."""
        with tempfile.TemporaryDirectory(prefix='asprop.') as folder:
            payloads = os.path.join(folder, 'payloads.csv')
            _put_payloads(payloads, self.payloads, task.victim)
            if task.kind == 'leak':
                return self._leaks(task, payloads)
            if task.pair == 1 or self.payloads is not None:
                _look(self.world(task, payloads), task, self.program)
            return self._sweeps(task, payloads) if self.order == 'random' else self._edits(task, payloads)

    def _sweeps(self, task: _Task, payloads: str) -> List[Row]:
        lines = [Sweep(self.adopted(task.kind), 1, ADDRESS, task.draw, self.trials, self.adopters[at:at + _IN_A_LINE])
                 for at in range(0, len(self.adopters), _IN_A_LINE)]
        return [self._counted(task, it.adopters, it.number, it.counts)
                for it in asprop.sweep(self.world(task, payloads), lines, self.program)]

    def _edits(self, task: _Task, payloads: str) -> List[Row]:
        if len(self.adopters) + self.adopters[-1] > _IN_A_SCRIPT:
            return [self._counted(task, count, 1, self._reported(task, payloads, self.largest[:count])) for count in self.adopters]
        script, before = Script(), 0
        for count in self.adopters:
            for asn in self.largest[before:count]:
                script.policy(asn, self.adopted(task.kind))
            script.report(1, ADDRESS)
            before = count
        return [self._counted(task, count, 1, total)
                for count, total in zip(self.adopters, _totals(self.world(task, payloads), script, self.program))]

    def _reported(self, task: _Task, payloads: str, adopters: Sequence[int]) -> Counts:
        script = Script()
        if task.kind == 'leak':
            # Where packets end tells little of a leak, so its table is counted.
            script.drawn_by(2, PREFIX, task.attacker)
        else:
            script.report(1, ADDRESS)
        total, = _totals(self.world(task, payloads, adopters), script, self.program)
        return total

    def _leaks(self, task: _Task, payloads: str) -> List[Row]:
        # No sweep tells whom a leak draws, and many edits of otc cost more than a load.
        found: List[Row] = []
        for trial in range(1, self.trials + 1):
            order = drawn_adopters(self.largest, task.draw, trial) if self.order == 'random' else self.largest
            found += [self._counted(task, count, trial, self._reported(task, payloads, order[:count])) for count in self.adopters]
        return sorted(found, key=lambda row: (row.adopters, row.trial))

    def _counted(self, task: _Task, count: int, trial: int, counts: Counts) -> Row:
        if counts.ases != len(self.largest):
            warnings.warn('pair %d: %d of %d ASes are counted, since the others left the world' % (
                task.pair, counts.ases, len(self.largest)))
        return task.row(count, trial, counts.ases, counts.to.get(task.attacker, 0), counts.no_route + counts.loop)


def _totals(world: World, script: Script, program: Optional[str]) -> List[Counts]:
    """The counts of all ASes in each report of the script."""
    found: List[Counts] = []
    for answer in asprop.run(world, script, program):
        if isinstance(answer, asprop.Refusal):
            raise ValueError('refused: %s %s' % (answer.reason, ' '.join(answer.words)))
        if isinstance(answer, dict):
            found += [counts for group, counts in answer.items() if group == 'total' and isinstance(counts, Counts)]
    return found


def _put_payloads(name: str, further: Optional[str], victim: int) -> None:
    with open(name, 'w', encoding='utf8', newline='\n') as file:
        file.write('ASN,IP Prefix,Max Length,Trust Anchor\nAS%d,%s,8,study\n' % (victim, PREFIX))
        if further is not None:
            with open(further, encoding='utf-8-sig', newline='') as rows:
                rows.readline()
                shutil.copyfileobj(rows, file)


def _look(world: World, task: _Task, program: Optional[str]) -> None:
    """Raises ValueError where the attack isn't what its kind says, as a payload of others for these addresses makes it."""
    script, origin = Script(), task.victim if task.kind == 'forged-origin' else task.attacker
    script.validity(PREFIX, task.victim)
    script.validity(HALF if task.kind == 'sub-prefix' else PREFIX, origin)
    states = [it.state for it in asprop.run(world, script, program) if isinstance(it, Validity)]
    if states != ['valid', 'valid' if task.kind == 'forged-origin' else 'invalid']:
        raise ValueError('%s of AS %d by AS %d: the states are %s' % (task.kind, task.victim, task.attacker, states))


def _first_word(seed: int) -> int:
    # The first 64-bit word of SplitMix64 after this seed.
    word = (seed + 0x9e3779b97f4a7c15) & 0xffffffffffffffff
    word = ((word ^ word >> 30) * 0xbf58476d1ce4e5b9) & 0xffffffffffffffff
    word = ((word ^ word >> 27) * 0x94d049bb133111eb) & 0xffffffffffffffff
    return word ^ word >> 31


def drawn_adopters(ases: Iterable[int], seed: int, trial: int) -> List[int]:
    """The ASes in the order in which a trial of a sweep draws them: its K adopters are the first K."""
    start = _first_word(seed + (trial - 1) * 0x9e3779b97f4a7c15)
    return sorted(ases, key=lambda asn: (_first_word(start ^ asn), asn))


def _neighbours(links: str) -> Tuple[Dict[int, int], Dict[int, int]]:
    """For each AS of a relationship file how many customers and how many other neighbours it has."""
    customers: Dict[int, int] = {}
    others: Dict[int, int] = {}
    seen = set()
    with open(links, encoding='latin-1', newline='\n') as file:
        for line in file:
            if line.strip() and not line.startswith('#'):
                a, b, relation = line.split('|', 3)[:3]
                first, second = int(a), int(b)
                pair = (min(first, second), max(first, second))
                for asn in pair:
                    customers.setdefault(asn, 0)
                    others.setdefault(asn, 0)
                if pair not in seen:
                    seen.add(pair)
                    (customers if relation.strip() == '-1' else others)[first] += 1
                    others[second] += 1
    return customers, others


def _refuse_open_quotes(payloads: str) -> None:
    # The program takes what stands behind an open quote for one field, so that all later payloads are gone.
    with open(payloads, encoding='utf-8-sig', newline='') as file:
        lines = sum(line.strip() != '' for line in file)
        file.seek(0)
        rows = sum(row != [] for row in csv.reader(file))
    if rows != lines:
        raise ValueError('%s has %d rows on %d lines: a quote is not closed' % (payloads, rows, lines))


def _built(program: str) -> str:
    """The built program, in place of a repository's ./asprop: that looks at its sources in each run, and makes a trial of minutes
    of each if nothing is built of them.
    """
    top = os.path.dirname(os.path.realpath(program))
    build = os.path.join(top, 'build')
    if os.path.basename(program) != 'asprop' or not os.path.isfile(build):
        return program
    if subprocess.run([build, '--is-current'], check=False).returncode != 0:
        raise ValueError('the program is not built of these sources, so that each run would take minutes: %s builds it' % build)
    return os.path.join(top, 'crates', 'asprop', 'out', 'asprop')


def _number_of(adopters: Union[int, str], ases: int) -> int:
    if isinstance(adopters, str):
        share = re.fullmatch(r'([0-9]+(?:\.[0-9]+)?)%', adopters)
        if share is None:
            raise ValueError('%r is neither a number of ASes nor a share as 5%%' % adopters)
        return int(ases * float(share[1]) / 100)
    return operator.index(adopters)


def _pairs(seed: int, count: int, attackers: Sequence[int], victims: Sequence[int]) -> Iterator[Tuple[int, int, int, int]]:
    # One after the other, so that the pairs of a small study are the first ones of a larger one.
    if not attackers or not victims or len({*attackers, *victims}) < 2:
        raise ValueError('there are no two ASes of which a pair could be drawn')
    draw = random.Random(seed)
    for pair in range(1, count + 1):
        attacker, victim = draw.choice(attackers), draw.choice(victims)
        while attacker == victim:
            attacker, victim = draw.choice(attackers), draw.choice(victims)
        yield pair, attacker, victim, draw.randrange(1 << 32)


class Study:
    """The rows of a study, and the number of the ASes of its world."""

    def __init__(self, ases: int, rows: List[Row]) -> None:
        self.ases = ases
        self.rows = rows

    def means(self) -> List[Mean]:
        """For each kind and each number of adopters the mean, in the order of the rows."""
        counts: Dict[Tuple[str, int], Dict[int, List[int]]] = {}
        for row in self.rows:
            counts.setdefault((row.kind, row.adopters), {}).setdefault(row.pair, []).append(row.to_attacker)
        found = []
        for (kind, adopters), pairs in counts.items():
            means = [statistics.fmean(it) for it in pairs.values()]
            half = 1.96 * statistics.stdev(means) / len(means) ** 0.5 if len(means) > 1 else 0.0
            found.append(Mean(kind, adopters, statistics.fmean(means), half))
        return found

    def table(self) -> str:
        """A line for each number of adopters, with the mean of each kind and half the width of its interval."""
        kinds = list(dict.fromkeys(row.kind for row in self.rows))
        cells = {(it.kind, it.adopters): '%.1f +- %.1f' % (it.mean, it.half) for it in self.means()}
        lines = [['adopters', *kinds]]
        for adopters in sorted({row.adopters for row in self.rows}):
            lines.append([str(adopters), *(cells.get((kind, adopters), '') for kind in kinds)])
        return '\n'.join('|'.join(line) for line in lines)

    def draw(self, name: str) -> str:
        """Draws the means and their intervals into an SVG or PNG file; the answer is what drew it.

        That is matplotlib if it is there, or gnuplot; without either an SVG file is drawn by itself.
        """
        curves: Dict[str, List[Mean]] = {}
        for it in self.means():
            curves.setdefault(it.kind, []).append(it)
        try:
            return _draw_by_matplotlib(name, curves, self.ases)
        except ImportError:
            pass
        return _draw_by_gnuplot(name, curves, self.ases) if shutil.which('gnuplot') else _draw(name, curves, self.ases)


_X, _Y = 'ASes that adopt, of %d', 'ASes that the attacker gets'
_COLOURS = ('#1f4e79', '#b3541e', '#3a7d44', '#6b3fa0')


def _draw_by_matplotlib(name: str, curves: Dict[str, List[Mean]], ases: int) -> str:
    import matplotlib
    matplotlib.use('Agg')
    from matplotlib import pyplot
    figure, axes = pyplot.subplots()
    for kind, means in curves.items():
        axes.errorbar([it.adopters for it in means], [it.mean for it in means], [it.half for it in means],
                      marker='o', capsize=3, label=kind)
    axes.set(xlabel=_X % ases, ylabel=_Y, ylim=(0, ases * 1.05))
    axes.grid(True)
    axes.legend()
    figure.savefig(name)
    pyplot.close(figure)
    return 'matplotlib'


def _draw_by_gnuplot(name: str, curves: Dict[str, List[Mean]], ases: int) -> str:
    lines = ['set terminal %s size 640,400 background "white"' % ('pngcairo' if name.endswith('.png') else 'svg'),
             'set output "%s"' % re.sub(r'(["\\])', r'\\\1', name), 'set xlabel "%s"' % _X % ases, 'set ylabel "%s"' % _Y,
             'set yrange [0:%d]' % (ases * 1.05), 'set grid', 'set key top right']
    for at, means in enumerate(curves.values()):
        lines += ['$data%d << END' % at, *('%d %f %f' % (it.adopters, it.mean, it.half) for it in means), 'END']
    lines.append('plot ' + ', '.join('$data%d using 1:2:3 with yerrorlines title "%s"' % it for it in enumerate(curves)))
    subprocess.run(['gnuplot'], input='\n'.join(lines) + '\n', text=True, check=True)
    return 'gnuplot'


def _draw(name: str, curves: Dict[str, List[Mean]], ases: int) -> str:
    if not name.endswith('.svg'):
        raise ValueError('neither matplotlib nor gnuplot is there, so only a file whose name ends with .svg is drawn')
    most = max([it.adopters for means in curves.values() for it in means] + [1])

    def at(adopters: float, count: float) -> Tuple[float, float]:
        return 70 + 540 * adopters / most, 340 - 310 * count / (ases * 1.05)

    out = ['<svg xmlns="http://www.w3.org/2000/svg" width="640" height="400" font-family="sans-serif" font-size="13">',
           '<rect width="640" height="400" fill="white"/>',
           '<text x="340" y="390" text-anchor="middle">%s</text>' % _X % ases,
           '<text transform="translate(16,185) rotate(-90)" text-anchor="middle">%s</text>' % _Y]
    for part in range(6):
        x, y = at(most * part / 5, ases * part / 5)
        out += ['<path d="M%.1f 340V14M70 %.1fH610" stroke="#ddd"/>' % (x, y),
                '<text x="%.1f" y="358" text-anchor="middle">%d</text>' % (x, most * part / 5),
                '<text x="64" y="%.1f" text-anchor="end">%d</text>' % (y + 4, ases * part / 5)]
    for number, (kind, means) in enumerate(curves.items()):
        colour = _COLOURS[number % len(_COLOURS)]
        points = [at(it.adopters, it.mean) for it in means]
        out.append('<path d="M%s" fill="none" stroke="%s" stroke-width="2"/>' % ('L'.join('%.1f %.1f' % it for it in points), colour))
        for it, (x, y) in zip(means, points):
            span = 310 * it.half / (ases * 1.05)
            out.append('<path d="M%.1f %.1fV%.1f" stroke="%s"/><circle cx="%.1f" cy="%.1f" r="3" fill="%s"/>' % (
                x, y - span, y + span, colour, x, y, colour))
        out.append('<text x="600" y="%d" text-anchor="end" fill="%s">%s</text>' % (32 + 18 * number, colour, kind))
    with open(name, 'w', encoding='ascii') as file:
        file.write('\n'.join(out) + '\n</svg>\n')
    return 'asprop'


_COLUMNS = [it.name for it in fields(Row)]


def _kept_rows(name: str, head: str, wanted: int) -> List[Row]:
    """The rows of an earlier run that was interrupted, of those tasks of which all rows are there."""
    with open(name, encoding='ascii', newline='') as file:
        lines = file.read().split('\n')[:-1]
    if lines and lines[0] != head:
        raise ValueError('%s is of another study: it begins with %r, and this one with %r' % (name, lines[0], head))
    rows = []
    for line in lines[2:]:
        pair, kind, *rest = line.split(',')
        numbers = list(map(int, rest))
        rows.append(Row(int(pair), kind, *numbers))
    counts: Dict[Tuple[int, str], int] = {}
    for row in rows:
        counts[row.pair, row.kind] = counts.get((row.pair, row.kind), 0) + 1
    return [row for row in rows if counts[row.pair, row.kind] == wanted]


def _put_row(file: TextIO, row: Row) -> None:
    file.write(','.join(map(str, astuple(row))) + '\n')


def _say(done: int, count: int, start: float) -> None:
    # done and count are of the tasks that this run has to do.
    if sys.stderr.isatty():
        passed = time.monotonic() - start
        sys.stderr.write('\r%d of %d runs, %d s, some %d s left  %s' % (
            done, count, passed, passed / done * (count - done), '\n' if done == count else ''))
        sys.stderr.flush()


def study(links: str, pairs: int = 20, kinds: Sequence[str] = ('sub-prefix',), adopters: Sequence[Union[int, str]] = (0,),
          trials: int = 1, seed: int = 1, jobs: Optional[int] = None, order: str = 'random', policy: Optional[str] = None,
          rows: Optional[str] = None, payloads: Optional[str] = None, attackers: Optional[Sequence[int]] = None,
          victims: Optional[Sequence[int]] = None, program: Optional[str] = None) -> Study:
    """Draws attackers and victims, and counts how many ASes each attack gets while so many ASes adopt a policy.

    kinds are some of ATTACKS.  adopters are numbers of ASes, or shares of all ASes as '5%'.  They are drawn anew for each of
    so many trials, as sweeps draw them, attackers and victims too; with the order 'largest' they are the ASes with most
    customers, in one trial.  They adopt the policy, or that of ATTACKS.  An attacker and a victim are drawn among the ASes
    without customers, and a leaker among those of them that have two other neighbours; or among the lists that are given.
    The victim announces PREFIX and has a payload for it; payloads is a file of further ones.

    So many programs as jobs says run side by side, as many as there are processors if it isn't given.  rows is the name of a
    CSV file, into which the rows are written as they come, in the order of the pairs.  If it is there, the study goes on
    from its rows, and if these are of another study ValueError is raised.  A terminal shows how far it is.  The same words
    give the same rows.
    """
    if isinstance(kinds, str) or not kinds or any(kind not in ATTACKS for kind in kinds):
        raise ValueError('kinds is a list of some of %s' % ', '.join(ATTACKS))
    if isinstance(adopters, str) or not adopters or order not in ('random', 'largest'):
        raise ValueError('adopters is a list, and order is random or largest')
    if os.path.exists(links) and not os.path.isfile(links):
        raise ValueError('%s is no file, and a study reads its relationships more than once' % links)
    if payloads is not None:
        _refuse_open_quotes(payloads)
    program = _built(program or asprop.PROGRAM)
    first = Script()
    first.ranks()
    ranks, = asprop.run(World(links), first, program)
    customers, others = _neighbours(links)
    if not isinstance(ranks, dict) or len(ranks) != len(customers):
        raise ValueError('%s has %d ASes, and the program tells otherwise' % (links, len(customers)))
    largest = sorted(customers, key=lambda asn: (-customers[asn], asn))
    counts = sorted({_number_of(it, len(largest)) for it in adopters})
    plan = _Plan(links, payloads, policy, order, largest, counts, trials if order == 'random' else 1, program)
    stubs = sorted(asn for asn in customers if not customers[asn])
    leakers = [asn for asn in stubs if others[asn] > 1]
    tasks = [_Task(pair, kind, attacker, victim, draw) for kind in kinds for pair, attacker, victim, draw in _pairs(
        seed, pairs, attackers or (leakers if kind == 'leak' else stubs), victims or stubs)]
    tasks.sort(key=lambda task: task.pair)
    return Study(len(largest), _done(plan, tasks, jobs, rows, _head(plan, seed)))


def _head(plan: _Plan, seed: int) -> str:
    """What tells a study from another one, of which no row may be kept; another number of pairs or another kind may."""
    names = [plan.links] + ([plan.payloads] if plan.payloads is not None else [])
    digests = []
    for name in names:
        with open(name, 'rb') as file:
            digests.append(hashlib.sha256(file.read()).hexdigest()[:16])
    return '# seed %d, %s, trials %d, policy %s, adopters %s, files %s' % (
        seed, plan.order, plan.trials, plan.policy or '-', ' '.join(map(str, plan.adopters)), ' '.join(digests))


def _done(plan: _Plan, tasks: Sequence[_Task], jobs: Optional[int], name: Optional[str], head: str) -> List[Row]:
    """The rows of all tasks, in their order; those that the file has already are taken from it."""
    kept = _kept_rows(name, head, len(plan.adopters) * plan.trials) if name is not None and os.path.exists(name) else []
    found: Dict[Tuple[int, str], List[Row]] = {}
    for row in kept:
        found.setdefault((row.pair, row.kind), []).append(row)
    for task in tasks:
        if any((row.attacker, row.victim, row.draw) != (task.attacker, task.victim, task.draw)
               for row in found.get((task.pair, task.kind), [])):
            raise ValueError('%s is of another study: its pair %d is another one' % (name, task.pair))
    wanted = [task for task in tasks if (task.pair, task.kind) not in found]
    file = None if name is None else open(name + '.new', 'w', encoding='ascii', newline='\n')
    start = time.monotonic()
    pool = concurrent.futures.ThreadPoolExecutor(jobs or os.cpu_count() or 1)
    try:
        if file is not None and name is not None:
            file.write(head + '\n' + ','.join(_COLUMNS) + '\n')
            for row in kept:
                _put_row(file, row)
            file.flush()
            os.replace(name + '.new', name)
        for done, (task, rows) in enumerate(zip(wanted, pool.map(plan.rows, wanted)), 1):
            found[task.pair, task.kind] = rows
            if file is not None:
                for row in rows:
                    _put_row(file, row)
                file.flush()
            _say(done, len(wanted), start)
    finally:
        pool.shutdown(wait=True, cancel_futures=True)
        if file is not None:
            file.close()
    return [row for task in tasks for row in found[task.pair, task.kind]]


def main() -> int:
    words = argparse.ArgumentParser(prog='asprop_study', description=(__doc__ or '').split('\n')[0])
    words.add_argument('links', help='a relationship file')
    words.add_argument('--pairs', type=int, default=20, help='how many attackers and victims are drawn')
    words.add_argument('--kinds', default='sub-prefix', help='some of %s, with commas between' % ', '.join(ATTACKS))
    words.add_argument('--adopters', default='0', help='numbers of ASes or shares, as 0,5%%,10%%')
    words.add_argument('--order', default='random', choices=['random', 'largest'], help='who adopts')
    words.add_argument('--trials', type=int, default=1, help='how often the adopters are drawn')
    words.add_argument('--policy', help='what they adopt, in place of drop-invalid, and of otc in leaks')
    words.add_argument('--payloads', help='a file of further payloads')
    words.add_argument('--seed', type=int, default=1, help='the same one draws the same')
    words.add_argument('--jobs', type=int, help='how many programs run side by side')
    words.add_argument('--rows', help='a CSV file for the rows, from which an interrupted study goes on')
    words.add_argument('--figure', help='a file for the figure')
    words.add_argument('--program', help='the built program')
    given = words.parse_args()
    adopters = [it if it.endswith('%') else int(it) for it in given.adopters.split(',')]
    try:
        done = study(given.links, given.pairs, given.kinds.split(','), adopters, given.trials, given.seed, given.jobs,
                     given.order, given.policy, given.rows, given.payloads, program=given.program)
        print(done.table())
        if given.figure is not None:
            done.draw(given.figure)
    except (asprop.Fault, OSError, ValueError) as error:
        print('asprop_study: %s' % error, file=sys.stderr)
        return error.status if isinstance(error, asprop.Fault) and error.status > 0 else 1
    except KeyboardInterrupt:
        print('asprop_study: interrupted', file=sys.stderr)
        return 130
    return 0


if __name__ == '__main__':
    sys.exit(main())

"""A client of asprop: it makes the scenario and the script, runs the built program, and gives the answers as values.

A World says what the files hold, a Script what is asked and edited, and run gives an answer for each line of the script;
docs/GUIDE.md shows them.  check tells where tables are wrong, sweep counts trials in which ASes adopt a policy, and study
does so for many attackers and victims.  What is proved of asprop is proved of the program alone.  This file proves nothing:
it writes text, starts the program and reads text, and its own tests are the command `.ci/python`.  It needs Python 3.9 or
newer and the standard library.
"""
from __future__ import annotations

import json
import operator
import os
import re
import subprocess
import tempfile
from dataclasses import dataclass, field
from typing import TYPE_CHECKING, Callable, Dict, Iterable, Iterator, List, Mapping, Optional, Sequence, Tuple, TypeVar, Union

if TYPE_CHECKING:
    from asprop_study import Study, drawn_adopters, study  # noqa: F401

#: What each exit status of the program says, where it is not 1.
STATUSES = {0: 'no answer', 2: 'usage', 3: 'bad input', 4: 'read fault', 5: 'write fault', 6: 'out of memory', 7: 'too large',
            125: 'not built', 126: 'not started', 127: 'not found'}

#: The classes of a route.
CLASSES = ('origin', 'customer', 'peer', 'provider')

_BESIDE = os.path.join(os.path.dirname(os.path.dirname(os.path.realpath(__file__))), 'asprop')
#: The program that is run if a call names none: $ASPROP, or the repository's, or the one that PATH finds.
PROGRAM = os.environ.get('ASPROP') or (_BESIDE if os.path.isfile(_BESIDE) else 'asprop')

_Read = TypeVar('_Read')


class Fault(Exception):
    """The program ended without all answers: its exit status, and what it wrote to standard error.

    A negative status is the number of the signal that ended it, 126 and 127 say that it could not be started, and 0 that
    what it wrote is no answer.  line is the line that the program refused to read, if it told one of the script or of the
    file in its place.
    """

    def __init__(self, status: int, text: str, line: Optional[str] = None) -> None:
        told = '' if line is None else ': %s' % line
        super().__init__('%s: %s%s' % (STATUSES.get(status, 'status %d' % status), text.strip(), told))
        self.status = status
        self.text = text
        self.line = line


def _list(values: Iterable[int]) -> List[int]:
    # A text is a sequence too, and '12' isn't the ASes 1 and 2.
    if isinstance(values, (str, bytes)):
        raise TypeError('a list of numbers is wanted and not the text %r' % values)
    return [operator.index(it) for it in values]


def _word(text: str) -> str:
    if not isinstance(text, str):
        raise TypeError('a text is wanted and not %r' % (text,))
    if not text or re.search(r'[\s|]', text):
        raise ValueError('%r is no word of a line' % text)
    return text


@dataclass(frozen=True)
class Route:
    """What an AS holds: its class (origin, customer, peer or provider), its path, and the number of RFC 9234 or None.

    The path begins with the AS itself.
    """
    kind: str
    path: Tuple[int, ...]
    otc: Optional[int] = None


@dataclass(frozen=True)
class Trace:
    """How a packet's way ends (delivered, no-route or loop), and the ASes that it passes, from the first on."""
    end: str
    path: Tuple[int, ...]


@dataclass
class Counts:
    """How many ASes a group has, how many of them have their packets delivered at which AS, and how many nowhere."""
    ases: int = 0
    to: Dict[int, int] = field(default_factory=dict)
    no_route: int = 0
    loop: int = 0


@dataclass(frozen=True)
class Validity:
    """A state of RFC 6811 (valid, invalid or not-found), and the covering payloads as (AS, prefix, maximum length)."""
    state: str
    payloads: Tuple[Tuple[int, str, int], ...]


@dataclass(frozen=True)
class Changed:
    """An edit that was accepted, and how many entries of all rounds and prefixes it changed."""
    entries: int


@dataclass(frozen=True)
class Refusal:
    """A line that was refused: the reason, as `unknown-as`, and the words behind it.

    The two ASes of an absent link are two words, and so are the ASes of a provider cycle.
    """
    reason: str
    words: Tuple[str, ...]


@dataclass(frozen=True)
class Wrong:
    """Where tables are wrong: the first such round, its lowest wrong AS, the route that it has there, and the right one."""
    round: int
    asn: int
    holds: Optional[Route]
    right: Optional[Route]


@dataclass(frozen=True)
class Sweep:
    """What is swept: a policy, the round and watched address whose packets are counted, a seed, how many trials, and the numbers
    of ASes that adopt the policy.
    """
    kind: str
    round: int
    address: str
    seed: int
    trials: int
    adopters: Sequence[int]


@dataclass(frozen=True)
class Trial:
    """How many ASes adopt in a trial, the number of the trial from 1 on, and the counts of all ASes."""
    adopters: int
    number: int
    counts: Counts


#: The rows of a table by AS; None where an AS has no route.
Table = Dict[int, Optional[Route]]
#: The counts of a report by group: total, stub and each policy that some AS has.
Report = Dict[str, Counts]
Answer = Union[Table, Trace, Report, Dict[int, int], Validity, Changed, Refusal]

#: An announcement: the prefix, the AS, and the path where it isn't the AS alone.
Announcement = Union[Tuple[str, int], Tuple[str, int, Sequence[int]]]


@dataclass
class World:
    """A relationship file and what happens over it.

    links and payloads are names of files, of which the program says what is wrong with them.  policies gives the policy of
    an AS that has another one than plain; leaks has a list of ASes for each round from round 2 on; watch has the addresses
    that reports may ask for.
    """
    links: str
    announcements: Sequence[Announcement] = ()
    payloads: Optional[str] = None
    policies: Mapping[int, str] = field(default_factory=dict)
    leaks: Sequence[Sequence[int]] = ()
    watch: Sequence[str] = ()

    def scenario(self) -> str:
        """The scenario as a JSON document."""
        announced: List[Dict[str, object]] = []
        for announcement in self.announcements:
            if isinstance(announcement, str) or len(announcement) not in (2, 3):
                raise ValueError('an announcement is a prefix, an AS and perhaps a path, and not %r' % (announcement,))
            one: Dict[str, object] = {'prefix': _word(announcement[0]), 'as': operator.index(announcement[1])}
            for path in announcement[2:]:
                one['path'] = _list(path)
            announced.append(one)
        if isinstance(self.watch, str):
            raise TypeError('a list of addresses is wanted and not the text %r' % self.watch)
        policies = [{'as': operator.index(asn), 'policy': _word(kind)} for asn, kind in self.policies.items()]
        return json.dumps({'announcements': announced, 'policies': policies, 'leaks': [_list(it) for it in self.leaks],
                           'watch': [_word(it) for it in self.watch]}) + '\n'

    def refuse_what_is_empty(self) -> None:
        """Raises ValueError if the relationship file has no links, which the program would take for a world without them."""
        if self.links in ('/dev/stdin', '/dev/fd/0', '/proc/self/fd/0'):
            raise ValueError('nothing stands on the standard input of the program: give %s a name' % self.links)
        if os.path.isfile(self.links):
            with open(self.links, 'rb') as file:
                if all(line.strip() == b'' or line.startswith(b'#') for line in file):
                    raise ValueError('%s has no links' % self.links)


def _numbers(text: str) -> Tuple[int, ...]:
    return tuple(map(int, text.split(' ')))


def _route(kind: str, path: str, mark: Sequence[str]) -> Optional[Route]:
    # none and nothing, or origin and 3 1 5, or origin and 3 1 5 and otc 1
    if kind == 'none' and not path and not mark:
        return None
    if kind not in CLASSES or len(mark) > 1 or (mark and not mark[0].startswith('otc ')):
        raise ValueError('no route: %s|%s' % (kind, '|'.join([path, *mark])))
    return Route(kind, _numbers(path), int(mark[0][4:]) if mark else None)


def _row(line: str) -> Tuple[int, Optional[Route]]:
    asn, kind, path, *mark = line.split('|')
    return int(asn), _route(kind, path, mark)


def _table(lines: Sequence[str]) -> Table:
    return dict(map(_row, lines))


def _drawn(lines: Sequence[str], asn: int) -> Report:
    # As drawn_by of the table, without making it.
    name, inside = '%d|' % asn, ' %d ' % asn
    drawn = sum(not line.startswith(name) and inside in ' %s ' % line.split('|')[2] for line in lines)
    return {'total': Counts(len(lines), {asn: drawn}, sum('|none|' in line for line in lines))}


def _trace(lines: Sequence[str]) -> Trace:
    # delivered|3 1 2 6
    line, = lines
    end, path = line.split('|')
    return Trace(end, _numbers(path))


def _counts(rows: Dict[str, int]) -> Counts:
    ases, no_route, loop = rows.pop('ases'), rows.pop('no-route'), rows.pop('loop')
    to = {int(what[3:]): count for what, count in rows.items() if what.startswith('to ')}
    if len(to) != len(rows) or sum(to.values()) + no_route + loop != ases:
        raise ValueError('a report that does not count each AS once')
    return Counts(ases, to, no_route, loop)


def _report(lines: Sequence[str]) -> Report:
    # total|ases|7, then total|to 4|4 for some ASes, total|no-route|0 and total|loop|0
    found: Dict[str, Dict[str, int]] = {}
    for line in lines:
        group, what, count = line.split('|')
        found.setdefault(group, {})[what] = int(count)
    return {group: _counts(rows) for group, rows in found.items()}


def _ranks(lines: Sequence[str]) -> Dict[int, int]:
    return {int(asn): int(rank) for asn, rank in (line.split('|') for line in lines)}


def _validity(lines: Sequence[str]) -> Validity:
    # state|valid, then 4|10.0.0.0/8|8 for each payload that covers the prefix
    rows = (line.split('|') for line in lines[1:])
    return Validity(lines[0].split('|')[1], tuple((int(asn), prefix, int(most)) for asn, prefix, most in rows))


def _changed(lines: Sequence[str]) -> Changed:
    line, = lines
    return Changed(int(line.split(' ')[1]))


class Script:
    """The lines of a script, each answered in the world that the lines before it leave.

    A round is counted from 1, a prefix and an address are texts, and a relation is -1 where the first AS is the provider
    of the second, and 0 where they are peers.  A call adds a line; what it asks for is the answer at that line's place in
    what run gives, or a Refusal.
    """

    def __init__(self) -> None:
        self.lines: List[str] = []
        self._readers: List[Callable[[Sequence[str]], Answer]] = []

    def _add(self, reader: Callable[[Sequence[str]], Answer], *words: Union[str, int]) -> None:
        self.lines.append(' '.join(_word(it) if isinstance(it, str) else str(operator.index(it)) for it in words))
        self._readers.append(reader)

    def _add_link(self, name: str, *numbers: int) -> None:
        self.lines.append('%s %s' % (name, '|'.join(map(str, _list(numbers)))))
        self._readers.append(_changed)

    def routes(self, round_: int, prefix: str) -> None:
        """Asks for the route of every AS; the answer is a Table."""
        self._add(_table, 'routes', round_, prefix)

    def drawn_by(self, round_: int, prefix: str, asn: int) -> None:
        """Asks how many other ASes have an AS on the path of their route; the answer is a Report of the group total alone,
        in which they are counted at that AS, and those without a route in no_route.
        """
        self._add(lambda lines: _drawn(lines, asn), 'routes', round_, prefix)

    def route(self, round_: int, prefix: str, asn: int) -> None:
        """Asks for the route of one AS; the answer is a Table with one row."""
        self._add(_table, 'route', round_, prefix, asn)

    def trace(self, round_: int, asn: int, address: str) -> None:
        """Asks for the way of a packet from an AS to an address; the answer is a Trace."""
        self._add(_trace, 'trace', round_, asn, address)

    def report(self, round_: int, address: str) -> None:
        """Asks where the packets of all ASes to a watched address end; the answer is a Report."""
        self._add(_report, 'report', round_, address)

    def ranks(self) -> None:
        """Asks for how many links the longest way down from each AS has; the answer is a dict from ASes to ranks."""
        self._add(_ranks, 'ranks')

    def validity(self, prefix: str, origin: int) -> None:
        """Asks for the validation state of a prefix with an origin; the answer is a Validity."""
        self._add(_validity, 'validity', prefix, origin)

    def link(self, a: int, b: int, relation: int) -> None:
        """Puts a link in place of what the pair was; the answer is a Changed."""
        self._add_link('link', a, b, relation)

    def unlink(self, a: int, b: int) -> None:
        """Takes the pair's link away; the answer is a Changed.

        An AS whose last link goes leaves the world, and no report counts it, unless it announces or leaks or has another
        policy than plain.
        """
        self._add_link('unlink', a, b)

    def policy(self, asn: int, kind: str) -> None:
        """Gives an AS a policy; the answer is a Changed."""
        self._add(_changed, 'policy', asn, kind)

    def vrp_add(self, asn: int, prefix: str, most: int) -> None:
        """Adds a validated payload; the answer is a Changed."""
        self._add(_changed, 'vrp-add', asn, prefix, most)

    def vrp_take(self, asn: int, prefix: str, most: int) -> None:
        """Takes a validated payload away; the answer is a Changed."""
        self._add(_changed, 'vrp-take', asn, prefix, most)

    def announce(self, prefix: str, path: Iterable[int]) -> None:
        """Has the first AS of the path announce a prefix of the world with that path; the answer is a Changed."""
        self._add(_changed, 'announce', prefix, *_list(path))

    def withdraw(self, prefix: str, asn: int) -> None:
        """Has an AS announce a prefix no longer; the answer is a Changed."""
        self._add(_changed, 'withdraw', prefix, asn)

    def read(self, output: str) -> List[Answer]:
        """The answers in what the program printed, one for each line of the script, each behind its head line."""
        found: List[List[str]] = []
        for line in output.splitlines():
            if line.startswith('# '):
                found.append([])
            elif found:
                found[-1].append(line)
            else:
                raise ValueError('an answer without a head line')
        if len(found) != len(self._readers):
            raise ValueError('%d answers to %d lines' % (len(found), len(self._readers)))
        return [_answer(lines, reader) for lines, reader in zip(found, self._readers)]


def _answer(lines: Sequence[str], reader: Callable[[Sequence[str]], Answer]) -> Answer:
    if lines and lines[0].startswith('refused '):
        _, reason, *words = re.split('[ |]', lines[0])
        return Refusal(reason, tuple(words))
    return reader(lines)


def _fault(status: int, error: bytes, folder: str, text: str) -> Fault:
    # The files in the folder go with it, so the line itself is told in place of a name that nobody can open any more.
    told = error.decode(errors='replace').replace(folder + os.sep, '')
    at = re.search(r'^asprop: \w+: line ([0-9]+): ', told)
    lines = text.split('\n')
    return Fault(status, told, lines[int(at[1]) - 1] if at and int(at[1]) <= len(lines) else None)


def _output(world: World, form: str, text: str, program: Optional[str], seconds: Optional[float]) -> str:
    """What the program prints over the world and a file with this text, which is given by the option of this name."""
    world.refuse_what_is_empty()
    with tempfile.TemporaryDirectory(prefix='asprop.') as folder:
        words = [program or PROGRAM, world.links] + (['--vrps', world.payloads] if world.payloads is not None else [])
        for name, content in (('scenario', world.scenario()), (form, text)):
            with open(os.path.join(folder, name), 'w', encoding='utf8', newline='\n') as file:
                file.write(content)
            words += ['--' + name, file.name]
        try:
            done = subprocess.run(words, stdin=subprocess.DEVNULL, capture_output=True, timeout=seconds, check=False)
        except OSError as error:
            raise Fault(127 if isinstance(error, FileNotFoundError) else 126, str(error)) from error
        if done.returncode not in (0, 1):
            raise _fault(done.returncode, done.stderr, folder, text)
    return done.stdout.decode('ascii', errors='replace')


def _understood(reader: Callable[[str], _Read], output: str) -> _Read:
    try:
        return reader(output)
    except (ValueError, LookupError) as error:
        raise Fault(0, 'what the program wrote is no answer: %s' % error) from error


def run(world: World, script: Script, program: Optional[str] = None, seconds: Optional[float] = None) -> List[Answer]:
    """Runs the program over the world and gives the answers, one for each line of the script.

    A line that is refused has a Refusal as its answer.  Raises Fault if the program ends without all answers, with the
    status 125 if ./asprop had no answer, and subprocess.TimeoutExpired if it takes longer than so many seconds.
    Raises ValueError or TypeError for a value that no file could hold, and for a relationship file without links.
    Nothing stands on the program's standard input.
    """
    return _understood(script.read, _output(world, 'script', ''.join(line + '\n' for line in script.lines), program, seconds))


def drawn_by(table: Table, asn: int) -> int:
    """How many other ASes have this AS on the path of their route."""
    return sum(other != asn and route is not None and asn in route.path for other, route in table.items())


def _row_text(asn: int, route: Optional[Route]) -> str:
    if route is None:
        return '%d|none|\n' % operator.index(asn)
    mark = '' if route.otc is None else '|otc %d' % operator.index(route.otc)
    return '%d|%s|%s%s\n' % (operator.index(asn), _word(route.kind), ' '.join(map(str, _list(route.path))), mark)


def _wrong(output: str) -> Optional[Wrong]:
    answer = dict(line.split('|', 1) for line in output.splitlines())
    if answer['stable'] == 'yes':
        return None
    asn, holds = _row(answer['holds'])
    return Wrong(int(answer['round']), asn, holds, _row(answer['right'])[1])


def check(world: World, prefix: str, tables: Sequence[Table], program: Optional[str] = None,
          seconds: Optional[float] = None) -> Optional[Wrong]:
    """Where the tables of a prefix, of round 1 and the rounds after it, are wrong; None where each is the stable routing.

    An AS that a table doesn't name has no route in it.  Raises as run does.
    """
    text = ''.join('for %d %s\n' % (number, _word(prefix)) + ''.join(_row_text(asn, route) for asn, route in table.items())
                   for number, table in enumerate(tables, 1))
    return _understood(_wrong, _output(world, 'check', text, program, seconds))


def wrong_rows(world: World, prefix: str, tables: Sequence[Table], program: Optional[str] = None,
               seconds: Optional[float] = None) -> Iterator[Wrong]:
    """The wrong rows one after the other, each by a run in which those before it have been put right.

    What is right for an AS goes by its neighbours' rows, so that an AS may come more than once.  Take as many as you want
    to see.  Raises as run does.
    """
    mended = [dict(table) for table in tables]
    wrong = check(world, prefix, mended, program, seconds)
    while wrong is not None:
        yield wrong
        mended[wrong.round - 1][wrong.asn] = wrong.right
        wrong = check(world, prefix, mended, program, seconds)


def _trials(output: str) -> List[Trial]:
    # 40|1|to 4|3 for some ASes, then 40|1|no-route|0 and 40|1|loop|0, and so on
    found: List[Trial] = []
    rows: Dict[str, int] = {}
    for line in output.splitlines():
        adopters, number, what, count = line.split('|')
        rows[what] = int(count)
        if what == 'loop':
            rows['ases'] = sum(rows.values())
            found.append(Trial(int(adopters), int(number), _counts(rows)))
            rows = {}
    if rows:
        raise ValueError('half a trial')
    return found


def sweep(world: World, sweeps: Iterable[Sweep], program: Optional[str] = None, seconds: Optional[float] = None) -> List[Trial]:
    """The trials of all sweeps, one after the other: of each sweep for each number of adopters all trials, as they are given.

    All ASes of the world may be drawn, the attacker and the victim too.  Raises as run does.
    """
    text = ''.join('sweep %s %d %s %s\n' % (
        _word(it.kind), operator.index(it.round), _word(it.address),
        ' '.join(map(str, _list([it.seed, it.trials, *_list(it.adopters)])))) for it in sweeps)
    return _understood(_trials, _output(world, 'sweep', text, program, seconds))


def __getattr__(name: str) -> object:
    # The study stands in a file of its own, which is read once it is asked for, since it needs this one.
    if name in ('study', 'Study', 'drawn_adopters'):
        import asprop_study
        return getattr(asprop_study, name)
    raise AttributeError('module %r has no attribute %r' % (__name__, name))

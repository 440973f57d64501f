"""The worlds of bench/table, drawn from a fixed seed: a Folder makes each input file once, and a function of a world gives the
words over these files."""
import json
import os
import random
import subprocess
import sys

HERE = os.path.dirname(os.path.abspath(__file__))
STUDIED = os.path.join(os.path.dirname(HERE), 'examples', 'study')


class Folder:
    """Makes each input file once, some by the program."""

    def __init__(self, path, program):
        self.path, self.program = path, program

    def file(self, name, write):
        path = os.path.join(self.path, name)
        if not os.path.exists(path):
            with open(path + '.new', 'w') as out:
                write(out)
            os.rename(path + '.new', path)
        return path

    def text(self, name, text):
        return self.file(name, lambda out: out.write(text))

    def links(self, ases, count):
        """A drawn world, by links.py."""
        def write(out):
            subprocess.run([sys.executable, os.path.join(HERE, 'links.py'), str(ases), str(count)], stdout=out, check=True)
        return self.file('links-%d-%d' % (ases, count), write)

    def last_of(self, links):
        with open(links) as f:
            return int(f.readline().split()[-1])

    def numbers(self, links):
        """The AS numbers of a file, sorted."""
        found = set()
        with open(links) as f:
            for line in f:
                if line[0] != '#':
                    first, second, _ = line.split('|', 2)
                    found.add(int(first))
                    found.add(int(second))
        return sorted(found)


def announcements(pairs):
    return ',\n'.join('{"prefix":"%s","as":%d}' % pair for pair in pairs)


def prefixes(count):
    return ['%d.0.0.0/8' % (10 + place) for place in range(count)]


def scenario(folder, name, pairs, policies=(), leaks=(), watch=()):
    text = '{"announcements":[%s],\n"policies":[%s],\n"leaks":[%s],\n"watch":[%s]}\n' % (
        announcements(pairs),
        ','.join('{"as":%d,"policy":"%s"}' % pair for pair in policies),
        ','.join('[%s]' % ','.join(map(str, leakers)) for leakers in leaks),
        ','.join('"%s"' % addr for addr in watch))
    return folder.text(name, text)


def drawn(count, ases, seed):
    return random.Random(seed).sample(ases, count)


def origin(ases, count):
    def words(folder):
        links = folder.links(ases, count)
        return [links, '--origin', str(folder.last_of(links))]
    return words


def many_prefixes(ases, count, kind=None, rounds=1, watched=0, first='10.0.0.1'):
    def words(folder):
        links = folder.links(ases, count)
        numbers = folder.numbers(links)
        pairs = list(zip(prefixes(32), drawn(32, numbers, 1)))
        leaks = [drawn(64, numbers, 10 + place) for place in range(rounds - 1)]
        policies = [(asn, kind) for asn in numbers] if kind else []
        watch = ([first] + ['%d.0.0.1' % (11 + place) for place in range(watched)])[:watched]
        name = 'prefixes-%d-%d-%s-%d-%d-%s.json' % (ases, count, kind, rounds, watched, first)
        return [links, '--scenario', scenario(folder, name, pairs, policies, leaks, watch)]
    return words


def watched(ases, count, rounds, addresses):
    """One prefix, of which so many addresses are watched."""
    def words(folder):
        links = folder.links(ases, count)
        numbers = folder.numbers(links)
        leaks = [drawn(64, numbers, 10 + place) for place in range(rounds - 1)]
        watch = ['10.0.0.%d' % (1 + place) for place in range(addresses)]
        pairs = [('10.0.0.0/8', folder.last_of(links))]
        name = 'watched-%d-%d-%d-%d.json' % (ases, count, rounds, addresses)
        return [links, '--scenario', scenario(folder, name, pairs, (), leaks, watch)]
    return words


def many_payloads(folder):
    def write(out):
        out.write('ASN,IP Prefix,Max Length,Trust Anchor\n')
        draw = random.Random(3)
        for place in range(2000000):
            out.write('AS%d,%d.%d.%d.0/24,24,test\n' % (draw.randrange(1, 400000), place >> 16, place >> 8 & 255, place & 255))
    links = folder.text('two.links', '1|2|-1\n')
    script = folder.text('validity.script', 'validity 0.0.0.0/24 5\n')
    return [links, '--vrps', folder.file('payloads.csv', write), '--script', script]


def many_lines(line):
    """100,000 lines that ask the ASes one after the other."""
    def words(folder):
        links = folder.links(75000, 500000)
        numbers = folder.numbers(links)
        asked = random.Random(4).choices(numbers, k=100000)
        last = folder.last_of(links)
        name = line.split()[0]
        script = folder.text(name + '.script', ''.join(line % asn + '\n' for asn in asked))
        return [links, '--scenario', scenario(folder, 'one.json', [('10.0.0.0/8', last)]), '--script', script]
    return words


def order(how):
    def words(folder):
        links = folder.links(149000, 1500000)
        last = folder.last_of(links)

        def write(out):
            with open(links) as f:
                lines = f.readlines()[1:]
            if how == 'shuffled':
                random.Random(7).shuffle(lines)
            else:
                lines.reverse()
            out.writelines(lines)
        return [folder.file(how + '-links', write), '--origin', str(last)]
    return words


def tree(out):
    for above in range(1, 10001):
        out.write('%d|%d|-1\n' % (above, 2 * above))
        if 2 * above + 1 <= 20000:
            out.write('%d|%d|-1\n' % (above, 2 * above + 1))


def tree_edits(name, text, policies=()):
    """50,000 edits of the lines over four prefixes, two rounds and four watched addresses."""
    def words(folder):
        links = folder.file('tree', tree)
        names = ['10', '11', '12', '13']
        plan = scenario(folder, name + '.json', [(first + '.0.0.0/8', 1) for first in names], policies, [[]],
                        [first + '.0.0.1' for first in names])
        payload = folder.text('tree.csv', 'ASN,IP Prefix,Max Length\nAS9,8.0.0.0/5,5\n')
        script = folder.text(name + '.script', text * 25000)
        return [links, '--vrps', payload, '--scenario', plan, '--script', script]
    return words


def hub(out):
    for customer in range(2, 150001):
        out.write('1|%d|-1\n' % customer)


def hub_edits(folder, name='hub.script', text='unlink 1|2\nlink 1|2|-1\n'):
    links = folder.file('hub', hub)
    plan = scenario(folder, 'hub.json', [('0.0.0.0/0', 2)])
    return [links, '--scenario', plan, '--script', folder.text(name, text)]


def with_customers(links):
    """The ASes of a file that are somebody's provider."""
    with open(links) as f:
        return sorted({int(line.split('|')[0]) for line in f if line[0] != '#' and line.split('|')[2] == '-1'})


def mixed_edits(folder):
    """99,000 edits over 75,000 ASes, two prefixes, two rounds and a watched address, as studies make them: of ten edits
    three cut a link of the file, and nearly as many join one that was cut before, so that some hundred links are cut at a
    time; four change a policy; and one in fifty joins two ASes that are drawn.  Links are drawn evenly, so that most of
    their ends are large ASes."""
    links = folder.links(75000, 500000)
    with open(links) as f:
        lines = [line.split('|')[:3] for line in f.readlines()[1:]]
    numbers, sellers = folder.numbers(links), with_customers(links)
    victim, attacker = drawn(2, sorted(set(numbers) - set(sellers)), 1)
    plan = scenario(folder, 'mixed.json', [('10.0.0.0/8', victim), ('10.0.0.0/9', attacker)],
                    leaks=[sorted(drawn(5, sellers, 2))], watch=['10.0.0.1'])
    payload = folder.text('mixed.csv', 'ASN,IP Prefix,Max Length\nAS%d,10.0.0.0/8,8\n' % victim)
    kinds = ['plain', 'drop-invalid', 'prefer-valid', 'provider-first']

    def write(out):
        draw, cut = random.Random(8), []
        for _ in range(99000):
            lot = draw.random()
            if lot < 0.4:
                out.write('policy %d %s\n' % (draw.choice(numbers), draw.choice(kinds)))
            elif lot < 0.7 or not cut:
                cut.append(draw.choice(lines))
                out.write('unlink %s|%s\n' % tuple(cut[-1][:2]))
            elif lot < 0.98:
                out.write('link %s\n' % '|'.join(cut.pop(draw.randrange(len(cut)))))
            else:
                out.write('link %d|%d|%d\n' % (*draw.sample(numbers, 2), draw.choice((0, -1))))
        out.write('report 1 10.0.0.1\nreport 2 10.0.0.1\nroutes 2 10.0.0.0/9\n')
    return [links, '--vrps', payload, '--scenario', plan, '--script', folder.file('mixed.script', write)]


def dense_edits(edits, count=1, rounds=1, watches=0):
    """So many edits, after each of which all entries differ: of the only announcement, or of the link of the AS that announces all."""
    def words(folder):
        links = folder.links(75000, 500000)
        last = folder.last_of(links)

        def write(out):
            with open(links) as f:
                out.writelines(f.readlines()[1:])
            out.write('%d|4000000000|-1\n' % last)
        leaks = [drawn(64, folder.numbers(links), 10 + place) for place in range(rounds - 1)]
        watch = ['%d.0.0.1' % (10 + place) for place in range(watches)]
        name = 'dense-%d-%d-%d' % (count, rounds, watches)
        plan = scenario(folder, name + '.json', [(prefix, 4000000000) for prefix in prefixes(count)], (), leaks, watch)
        pair = ['withdraw 10.0.0.0/8 4000000000\n', 'announce 10.0.0.0/8 4000000000\n']
        if count > 1:
            pair = ['unlink %d|4000000000\n' % last, 'link %d|4000000000|-1\n' % last]
        script = folder.text('%s-%d.script' % (name, edits), ''.join((pair * edits)[:edits]))
        return [folder.file('dense-links', write), '--scenario', plan, '--script', script]
    return words


def demo(count):
    return lambda folder: ['--demo', str(count)]


def one_origin(folder, ases, count):
    links = folder.links(ases, count)
    return links, ['--scenario', scenario(folder, 'one-%d.json' % ases, [('10.0.0.0/8', folder.last_of(links))])]


def activations(folder):
    """Each of 75,000 ASes in rising number, thirteen times."""
    links, words = one_origin(folder, 75000, 500000)
    line = 'act %s\n' % ' '.join(map(str, folder.numbers(links)))
    return [links] + words + ['--activations', folder.text('thirteen-times', 'for 1 10.0.0.0/8\n' + line * 13)]


def held(folder):
    """Each of 149,000 ASes holds an entry, and nobody acts."""
    links, words = one_origin(folder, 149000, 1500000)
    lines = ''.join('hold %d customer %d\n' % (asn, asn) for asn in folder.numbers(links))
    return [links] + words + ['--activations', folder.text('held', 'for 1 10.0.0.0/8\n' + lines)]


def messages(ases, count, text):
    def words(folder):
        links, others = one_origin(folder, ases, count)
        name = 'deliveries-%d-%d' % (ases, len(text))
        return [links] + others + ['--messages', folder.text(name, 'for 1 10.0.0.0/8\n' + text)]
    return words


def tables(ases, count, rounds, length=1):
    """The tables of a prefix in all rounds, as they are printed; its path has so many numbers."""
    def words(folder):
        links = folder.links(ases, count)
        name = 'tables-%d-%d-%d' % (ases, rounds, length)
        path = [folder.last_of(links)] + [400000 + place for place in range(1, length)]
        leaks = [drawn(64, folder.numbers(links), 10 + place) for place in range(rounds - 1)]
        plan = folder.text(name + '.json', json.dumps(
            {'announcements': [{'prefix': '10.0.0.0/8', 'as': path[0], 'path': path}], 'leaks': leaks}))

        def write(out):
            for number in range(1, rounds + 1):
                script = folder.text('routes-%d.script' % number, 'routes %d 10.0.0.0/8\n' % number)
                print('for %d 10.0.0.0/8' % number, file=out, flush=True)
                subprocess.run([folder.program, links, '--scenario', plan, '--script', script], stdout=out, check=True)
        return [links, '--scenario', plan, '--check', folder.file(name, write)]
    return words


def empty_table(ases, count):
    """A table without rows, in which the announcing AS alone is wrong."""
    def words(folder):
        links, others = one_origin(folder, ases, count)
        return [links] + others + ['--check', folder.text('empty-table', 'for 1 10.0.0.0/8\n')]
    return words


def sub_prefix(folder, ases, count):
    """The hijack of half of the prefix of the last AS, which has a payload, and an address in that half."""
    links = folder.links(ases, count)
    victim = folder.last_of(links)
    attacker = next(asn for asn in drawn(2, folder.numbers(links), 1) if asn != victim)
    plan = scenario(folder, 'sub-prefix-%d.json' % ases, [('10.0.0.0/8', victim), ('10.128.0.0/9', attacker)], watch=['10.128.0.1'])
    payload = folder.text('sub-prefix-%d.csv' % ases, 'ASN,IP Prefix,Max Length\nAS%d,10.0.0.0/8,8\n' % victim)
    return [links, '--vrps', payload, '--scenario', plan]


def swept(folder, words, trials, ks):
    name = 'sweep-%d-%s' % (trials, '-'.join(map(str, ks)))
    return words + ['--sweep', folder.text(name, 'sweep drop-invalid 1 10.128.0.1 7 %d %s\n' % (trials, ' '.join(map(str, ks))))]


def sweep(ases, count, trials, ks):
    return lambda folder: swept(folder, sub_prefix(folder, ases, count), trials, ks)


def sweep_of_many_prefixes(folder):
    """The same line in a world of 32 prefixes, four rounds and sixteen watched addresses, a payload of which is for another AS."""
    words = many_prefixes(75000, 500000, None, 4, 16, '10.128.0.1')(folder)
    payload = folder.text('many.csv', 'ASN,IP Prefix,Max Length\nAS1,10.0.0.0/8,8\n')
    return swept(folder, words + ['--vrps', payload], 10, EVERY_TENTH)


def study(script):
    """The files that examples/study/make draws, and a script over them."""
    def words(folder):
        path = os.path.join(folder.path, 'study')
        if not os.path.exists(path):
            subprocess.run([sys.executable, os.path.join(STUDIED, 'make'), path + '.new', '--ases', '75000', '--links', '490000',
                            '--payloads', '500000'], check=True)
            os.rename(path + '.new', path)
        links = os.path.join(path, 'links')
        if script == 'ranks':
            return [links, '--script', os.path.join(STUDIED, 'ranks.script')]
        with open(os.path.join(path, 'scenario.json')) as f:
            victim, attacker = (it['as'] for it in json.load(f)['announcements'])
        return [links, '--vrps', os.path.join(path, 'payloads.csv'), '--scenario', os.path.join(path, 'scenario.json'),
                '--script', script(folder, links, victim, attacker)]
    return words


def first_look(folder, _, victim, attacker):
    return folder.text('first.script', 'validity 10.0.0.0/16 %d\nvalidity 10.0.128.0/17 %d\nreport 1 10.0.128.1\n' % (victim, attacker))


def adoption(name, choose):
    """A hundred ASes drop what is invalid, one after the other, with a report first and after every ten."""
    def script(folder, links, _victim, _attacker):
        report = 'report 1 10.0.128.1\n'

        def write(out):
            out.write(report)
            for at, asn in enumerate(choose(folder, links), 1):
                out.write('policy %d drop-invalid\n' % asn + (report if at % 10 == 0 else ''))
        return folder.file(name + '.script', write)
    return study(script)


def by_rank(folder, links):
    """The hundred ASes of the highest ranks, as the program tells them."""
    done = subprocess.run([folder.program, links, '--script', os.path.join(STUDIED, 'ranks.script')], stdout=subprocess.PIPE,
                          text=True, check=True)
    rows = [tuple(map(int, line.split('|'))) for line in done.stdout.splitlines() if '|' in line]
    return [asn for asn, _ in sorted(rows, key=lambda row: (-row[1], row[0]))[:100]]


def by_lot(folder, links):
    return drawn(100, folder.numbers(links), 12)


EVERY_TENTH = range(0, 75001, 7500)

STUDY = [
    ('the ranks, from the links alone', study('ranks')),
    ('the first look: the payloads, two states and a report', study(first_look)),
    ('100 policies of the largest ASes, with eleven reports', adoption('largest', by_rank)),
    ('100 policies of ASes drawn at random, with eleven reports', adoption('random', by_lot)),
]

SPEED = [
    ('one origin, 75,000 ASes, 500,000 links', origin(75000, 500000)),
    ('one origin, 149,000 ASes, 1,500,000 links', origin(149000, 1500000)),
    ('32 prefixes, 75,000 ASes', many_prefixes(75000, 500000)),
    ('32 prefixes, 149,000 ASes, 1,500,000 links', many_prefixes(149000, 1500000)),
    ('the same, all ASes prefer-valid', many_prefixes(149000, 1500000, 'prefer-valid')),
    ('32 prefixes, 4 rounds, 149,000 ASes, 1,500,000 links', many_prefixes(149000, 1500000, None, 4)),
    ('16 watched addresses, 4 rounds, 75,000 ASes', many_prefixes(75000, 500000, None, 4, 16)),
    ('one prefix, 75,000 ASes', watched(75000, 500000, 1, 0)),
    ('the same, 16 watched addresses', watched(75000, 500000, 1, 16)),
    ('one prefix, 4 rounds, 149,000 ASes, 1,500,000 links', watched(149000, 1500000, 4, 0)),
    ('one prefix, 4 rounds, 149,000 ASes, 16 watched addresses', watched(149000, 1500000, 4, 16)),
    ('2,000,000 payloads', many_payloads),
    ('100,000 route lines on 75,000 ASes', many_lines('route 1 10.0.0.0/8 %d')),
    ('100,000 trace lines on 75,000 ASes', many_lines('trace 1 %d 10.0.0.1')),
    ('shuffled links', order('shuffled')),
    ('falling links', order('falling')),
]

FORMS = [
    ('975,000 activations of 75,000 ASes, 500,000 links', activations),
    ('149,000 held entries, 1,500,000 links', held),
    ('messages to the end, 20,000 ASes, 133,000 links', messages(20000, 133000, 'rest 1000000\n')),
    ('the start of the messages alone', messages(20000, 133000, '')),
    ('four tables of 150,000 rows checked, 1,500,000 links', tables(150000, 1500000, 4, 5)),
    ('one table of 75,000 rows checked, 500,000 links', tables(75000, 500000, 1)),
    ('a table without rows, which is wrong, over the same', empty_table(75000, 500000)),
    ('110 trials of a hijack, with 0, 7,500, .. 75,000 adopters, 75,000 ASes, 500,000 links', sweep(75000, 500000, 10, EVERY_TENTH)),
    ('the same, one trial without adopters', sweep(75000, 500000, 1, [0])),
    ('300 trials of a hijack with 1, 10 and 100 adopters, 149,000 ASes, 1,500,000 links', sweep(149000, 1500000, 100, [1, 10, 100])),
    ('the same, one trial without adopters, 149,000 ASes', sweep(149000, 1500000, 1, [0])),
    ('110 trials among 32 prefixes, 4 rounds, 16 watched addresses, 75,000 ASes', sweep_of_many_prefixes),
]

EDITS = [
    ('50,000 policy edits of a leaf of a tree, 4 watched addresses',
     tree_edits('tree-policy', 'policy 20000 drop-invalid\npolicy 20000 plain\n')),
    ('50,000 times a leaf of the tree announces a prefix, which its provider drops, or withdraws it',
     tree_edits('tree-announce', 'announce 10.0.0.0/8 20000\nwithdraw 10.0.0.0/8 20000\n', [(10000, 'drop-invalid')])),
    ('the tree with its watched addresses, without an edit', tree_edits('tree-load', '')),
    ('a link of a hub of 150,000 ASes cut and joined', hub_edits),
    ('the hub, without an edit', lambda folder: hub_edits(folder, 'hub-load.script', '')),
    ('99,000 mixed edits over 75,000 ASes', mixed_edits),
    ('20 times the only announcement over 75,000 ASes is withdrawn or made again', dense_edits(20)),
    ('the same, 16 watched addresses', dense_edits(20, 1, 1, 16)),
    ('the load of the first', dense_edits(0)),
    ('the load of the second', dense_edits(0, 1, 1, 16)),
    ('the link to the AS that announces all is cut, 32 prefixes, 4 rounds, 16 watched addresses', dense_edits(1, 32, 4, 16)),
    ('the load of that world', dense_edits(0, 32, 4, 16)),
    ('--demo 5000', demo(5000)),
    ('--demo 20000', demo(20000)),
]

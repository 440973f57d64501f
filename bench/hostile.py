"""Worlds that somebody picks, for bench/table, each with one of its size that is drawn at random or stands in order."""
import os
import random
import subprocess

from worlds import dense_edits, hub_edits, many_lines, many_payloads, many_prefixes, mixed_edits, order, origin, scenario, watched


def chain(count, seller=lambda place, count: (place, place + 1)):
    def write(out):
        for place in range(1, count):
            out.write('%d|%d|-1\n' % seller(place, count))
    return write


def chain_words(folder, kind=None):
    links = folder.file('chain-150000', chain(150000))
    policies = [(asn, kind) for asn in range(1, 150001)] if kind else []
    plan = scenario(folder, 'chain-%s.json' % kind, [('10.0.0.0/8', 1)], policies)
    payload = folder.text('one.csv', 'ASN,IP Prefix,Max Length\nAS1,10.0.0.0/8,8\n')
    script = folder.text('chain.script', 'route 1 10.0.0.0/8 150000\n')
    return [links, '--vrps', payload, '--scenario', plan, '--script', script]


def chain_edits(announcer, pair):
    """A link of a chain of 150,000 is cut and joined, beside the AS that announces, so that all entries change."""
    def words(folder):
        links = folder.file('chain-150000', chain(150000))
        plan = scenario(folder, 'chain-of-%d.json' % announcer, [('10.0.0.0/8', announcer)])
        script = folder.text('chain-%d.script' % announcer, 'unlink %s\nlink %s|-1\n' % (pair, pair))
        return [links, '--scenario', plan, '--script', script]
    return words


def leaves_of_a_chain(folder):
    """A chain of 20,000, and leaves each of which buys from its 38 lowest."""
    def write(out):
        chain(20000)(out)
        for leaf in range(20001, 38501):
            for above in range(19963, 20001):
                out.write('%d|%d|-1\n' % (above, leaf))
    return [folder.file('leaves', write), '--scenario', scenario(folder, 'leaves.json', [('10.0.0.0/8', 1)])]


def mesh(folder):
    def write(out):
        for first in range(1, 1701):
            for second in range(first + 1, 1701):
                out.write('%d|%d|0\n' % (first, second))
    return [folder.file('mesh', write), '--origin', '1700']


def ladder(folder):
    def write(out):
        for place in range(1, 75000):
            out.write('%d|%d|-1\n' % (place, place + 1))
            out.write('%d|%d|-1\n' % (75000 + place, 75001 + place))
        for place in range(1, 75001):
            out.write('%d|%d|0\n' % (place, 75000 + place))
    return [folder.file('ladder', write), '--scenario', scenario(folder, 'ladder.json', [('10.0.0.0/8', 75000)])]


def crowded_payloads(folder):
    def write(out):
        out.write('ASN,IP Prefix,Max Length\n')
        for place in range(2000000, 0, -1):
            out.write('AS%d,10.0.0.0/8,8\n' % place)
    links = folder.text('two.links', '1|2|-1\n')
    script = folder.text('crowded.script', 'validity 10.0.0.0/8 5\n')
    return [links, '--vrps', folder.file('crowded.csv', write), '--script', script]


COLLIDING = r'''
#include <stdint.h>
#include <stdio.h>
int main(void) {
    /* the numbers that hash maps of the kit, whose seed is fixed, look for from one place on */
    int found = 0;
    for (uint64_t x = 1; x < 4294967296ULL && found < 150000; x++) {
        unsigned __int128 p = (unsigned __int128)(0x243f6a8885a308d3ULL ^ (x | x << 32)) * (0x9e3779b97f4a7c15ULL ^ 8);
        uint64_t hash = (uint64_t)p ^ (uint64_t)(p >> 64);
        uint32_t word = (uint32_t)(hash ^ (hash >> 32));
        if ((word & 16383) == 0) {
            printf("%llu\n", (unsigned long long)x);
            found++;
        }
    }
    return 0;
}
'''


def colliding(folder):
    """150,000 numbers that the fixed hash puts at one place of a map, found by a small C program."""
    path = os.path.join(folder.path, 'colliding')
    if not os.path.exists(path):
        source = folder.text('colliding.c', COLLIDING)
        tool = os.path.join(folder.path, 'colliding.tool')
        subprocess.run(['cc', '-O2', '-o', tool, source], check=True)
        with open(path + '.new', 'w') as out:
            subprocess.run([tool], stdout=out, check=True)
        os.rename(path + '.new', path)
    with open(path) as f:
        return [int(line) for line in f]


def star(numbers):
    def write(out):
        for place in range(1, len(numbers)):
            out.write('%d|%d|-1\n' % (numbers[place // 2], numbers[place]))
    return write


def colliding_links(folder):
    numbers = colliding(folder)
    return [folder.file('colliding-links', star(numbers)), '--origin', str(numbers[-1])]


def drawn_links(folder):
    numbers = drawn_numbers(folder)
    return [folder.file('drawn-links', star(numbers)), '--origin', str(numbers[-1])]


def policies_of(numbers, name):
    def words(folder):
        chosen = numbers(folder)[:149998]
        plan = scenario(folder, name + '.json', [('10.0.0.0/8', chosen[0])], [(asn, 'drop-invalid') for asn in chosen])
        return [folder.text('two.links', '1|2|-1\n'), '--scenario', plan]
    return words


def drawn_numbers(folder):
    return sorted(random.Random(9).sample(range(1, 4294967295), 150000))


def one_long_record(folder):
    def write(out):
        out.write('ASN,IP Prefix,Max Length\nAS1,10.0.0.0/8,8')
        for _ in range(268):
            out.write(',' * 1000000)
        out.write('\n')
    return [folder.text('two.links', '1|2|-1\n'), '--vrps', folder.file('commas.csv', write)]


def refused_scenario(name, member, item, count):
    """A scenario that is refused for what stands so often in that member's list."""
    def words(folder):
        text = '{"announcements":[],"%s":[%s]}\n' % (member, ','.join([item] * count))
        return [folder.text('two.links', '1|2|-1\n'), '--scenario', folder.text(name + '.json', text)]
    return words


LARGEST = 268000000


def repeated(folder):
    """The lines of a drawn world, drawn again and again up to 268 megabytes."""
    links = folder.links(149000, 1500000)

    def write(out):
        with open(links) as f:
            lines = f.readlines()[1:]
        draw = random.Random(11)
        left = LARGEST
        while left > 2000000:
            text = ''.join(draw.choices(lines, k=100000))
            out.write(text)
            left -= len(text)
    return [folder.file('repeated-links', write), '--origin', str(folder.last_of(links))]


def repeated_in_order(folder):
    """The lines of the same world, each so often that the file has 268 megabytes."""
    links = folder.links(149000, 1500000)

    def write(out):
        with open(links) as f:
            lines = f.readlines()[1:]
        times = LARGEST // os.path.getsize(links)
        for line in lines:
            out.write(line * times)
    return [folder.file('repeated-in-order', write), '--origin', str(folder.last_of(links))]


def far_paths(folder, count, alike=False):
    """A chain whose first ASes announce paths of 64 numbers, 63 of which are ASes at the far end.  The next AS announces
    its own number alone, so that those at the far end get that path, and have to look for themselves in it: all of them
    where the other paths end with that number too."""
    links = folder.file('chain-150000', chain(150000))
    rows = []
    for place in range(count):
        path = [1 + place] + [150000 - 63 * place - step for step in range(63)]
        if alike:
            path[-1] = count + 1
        rows.append('{"prefix":"10.0.0.0/8","as":%d,"path":[%s]}' % (path[0], ','.join(map(str, path))))
    rows.append('{"prefix":"10.0.0.0/8","as":%d}' % (count + 1))
    plan = folder.text('far-paths-%d-%d.json' % (count, alike), '{"announcements":[%s]}\n' % ',\n'.join(rows))
    return [links, '--scenario', plan, '--script', folder.text('chain.script', 'route 1 10.0.0.0/8 150000\n')]


def far_leakers(folder):
    """A chain of 10,000, at whose end 64 ASes leak, each of which is a peer of all on the chain except who announces."""
    def write(out):
        chain(10000)(out)
        for leaker in range(10001, 10065):
            out.write('10000|%d|-1\n' % leaker)
            for place in range(2, 10000):
                out.write('%d|%d|0\n' % (place, leaker))
    plan = scenario(folder, 'far-leakers.json', [('10.0.0.0/8', 1)], leaks=[range(10001, 10065)])
    return [folder.file('far-leakers', write), '--scenario', plan]


def growing_hub(folder):
    """Links that give an AS one customer after the other, up to 10,000."""
    plan = scenario(folder, 'growing.json', [('0.0.0.0/0', 2)])
    script = folder.text('growing.script', ''.join('link 1|%d|-1\n' % customer for customer in range(3, 10003)))
    return [folder.text('two.links', '1|2|-1\n'), '--scenario', plan, '--script', script]


def hub_of_announcers(folder, name, path):
    """An AS with 150,000 customers, 64 of which announce a prefix by paths of these lengths, behind which it stands."""
    def write(out):
        for customer in range(1, 150000):
            out.write('200000|%d|-1\n' % customer)
    rows = ['{"prefix":"10.0.0.0/8","as":%d,"path":[%s]}' % (asn, ','.join([str(asn)] * path(asn))) for asn in range(1, 65)]
    return [folder.file('hub-of-announcers', write), '--scenario',
            folder.text(name + '.json', '{"announcements":[%s]}\n' % ','.join(rows))]


def hub_messages(name, path):
    """The first message of each announcer is delivered to the hub."""
    def words(folder):
        lines = ''.join('deliver %d 200000\n' % asn for asn in range(1, 65))
        return hub_of_announcers(folder, name, path) + ['--messages', folder.text('to-the-hub', 'for 1 10.0.0.0/8\n' + lines)]
    return words


def hub_activations(acting):
    """An AS, whose 150,000 customers all hold something, or as many of these, act."""
    def words(folder):
        held = ''.join('hold %d origin %d\n' % (asn, asn) for asn in range(1, 150000))
        lines = 'for 1 10.0.0.0/8\n' + held + 'act %s\n' % ' '.join(map(str, acting))
        return hub_of_announcers(folder, 'hub-acts', lambda asn: 1) + ['--activations', folder.text('acts-%d' % acting[0], lines)]
    return words


def small_world(folder):
    script = folder.text('small.script', 'routes 1 10.0.0.0/8\n' * 100000)
    plan = scenario(folder, 'small.json', [('10.0.0.0/8', 2)])
    return [folder.text('two.links', '1|2|-1\n'), '--scenario', plan, '--script', script]


def one_link(folder):
    links = folder.links(75000, 500000)
    with open(links) as f:
        first, second, relation, _ = f.readlines()[1].split('|')
    script = folder.text('one-link.script', 'unlink %s|%s\nlink %s|%s|%s\n' % (first, second, first, second, relation) * 50000)
    return [links, '--scenario', scenario(folder, 'one.json', [('10.0.0.0/8', folder.last_of(links))]), '--script', script]


# What is refused with status 3 or 7.
REFUSED = [
    ('26,500 JSON objects, each 125 deep', refused_scenario('nested', 'x', '{"":' * 125 + '0' + '}' * 125, 26500)),
    ('66,800 JSON arrays, each 125 deep', refused_scenario('arrays', 'leaks', '[' * 125 + ']' * 125, 66800)),
    ('5,592,000 lists without leakers', refused_scenario('empty', 'leaks', '[]', 5592000)),
    ('4,194,000 lists of one leaker', refused_scenario('single', 'leaks', '[1]', 4194000)),
    ('698,000 policies of one AS', refused_scenario('same', 'policies', '{"as":1,"policy":"otc"}', 698000)),
]

RANDOM = ('random world', origin(149000, 1500000))

HOSTILE = [
    ('a chain of 150,000', lambda folder: chain_words(folder), origin(149000, 150000)),
    ('the same, all ASes drop-invalid', lambda folder: chain_words(folder, 'drop-invalid'), origin(149000, 150000)),
    ('the chain, its first link cut and joined, beside who announces', chain_edits(1, '1|2'), dense_edits(2)),
    ('the same at its other end', chain_edits(150000, '149999|150000'), dense_edits(2)),
    ('leaves that buy from the 38 lowest of a chain', leaves_of_a_chain, origin(38500, 722000)),
    ('a mesh of 1,700 peers', mesh, origin(149000, 1444000)),
    ('a hub of 150,000 ASes, a link cut and joined', hub_edits, origin(149000, 150000)),
    ('a ladder of two chains', ladder, origin(149000, 225000)),
    ('150,000 numbers chosen against the hash, as links', colliding_links, drawn_links),
    ('149,998 policies for numbers chosen against the hash', policies_of(colliding, 'colliding'), policies_of(drawn_numbers, 'drawn')),
    ('2,000,000 payloads on one prefix, falling', crowded_payloads, many_payloads),
    ('a payload record of 268,000,000 commas', one_long_record, many_payloads),
] + [(name, words, many_prefixes(75000, 500000, 'prefer-valid')) for name, words in REFUSED] + [
    ('a path of 64 numbers that names the end of a chain', lambda folder: far_paths(folder, 1), origin(149000, 150000)),
    ('63 such paths, which name 3,969 ASes', lambda folder: far_paths(folder, 63), origin(149000, 150000)),
    ('the same, where all paths end with one AS', lambda folder: far_paths(folder, 63, True), origin(149000, 150000)),
    ('64 leakers at the end of a chain of 10,000, each a peer of all on it except one', far_leakers, watched(10064, 650000, 2, 0)),
    ('10,000 links that give an AS one customer after the other', growing_hub, one_link),
    ('64 deliveries to an AS with 150,000 neighbours, each of a better route', hub_messages('better', lambda asn: 65 - asn),
     hub_messages('alike', lambda asn: 1)),
    ('100 activations of an AS with 150,000 neighbours', hub_activations([200000] * 100), hub_activations(range(1, 101))),
    ('100,000 routes lines over a small world', small_world, many_lines('route 1 10.0.0.0/8 %d')),
    ('100,000 edits of one link', one_link, mixed_edits),
    ('shuffled links', order('shuffled'), RANDOM[1]),
    ('repeated and shuffled links of 268 megabytes', repeated, repeated_in_order),
]

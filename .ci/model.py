"""A naive model of the rules over a drawn world, for the script forms beside it.

It knows the rules alone: what a neighbour offers, which offer an AS takes, who leaks, and where a packet goes.  It computes
a stable routing by letting all ASes act one after the other until nothing changes.
"""
import collections
import ipaddress

CLASSES = ('customer', 'peer', 'provider')
TURNED = {'customer': 'provider', 'provider': 'customer', 'peer': 'peer'}

Entry = collections.namedtuple('Entry', 'kind path number')


class Model:
    """The rules over a drawn world."""

    def __init__(self, world):
        self.world = world
        self.ases = sorted(world.ases())
        self.near = {asn: {} for asn in self.ases}  # what each neighbour is to the AS
        for (low, high), provider in world.links.items():
            high_is = {low: 'customer', high: 'provider', 0: 'peer'}[provider]
            self.near[low][high], self.near[high][low] = high_is, TURNED[high_is]

    def policy(self, asn):
        return self.world.kinds.get(asn, 'plain')

    def marks(self, asn):
        return self.policy(asn) in ('otc', 'drop-invalid+otc')

    def state(self, prefix, origin):
        """RFC 6811, section 2."""
        route = ipaddress.ip_network(prefix)
        covering = [(asn, most) for asn, payload, most in self.world.payloads
                    if ipaddress.ip_network(payload).version == route.version
                    and route.subnet_of(ipaddress.ip_network(payload))]
        if not covering:
            return 'not-found'
        matches = any(asn == origin != 0 and route.prefixlen <= most for asn, most in covering)
        return 'valid' if matches else 'invalid'

    def exports(self, asn, entry, to):
        if self.marks(asn) and entry.number is not None:
            return to == 'customer'
        return entry.kind in ('origin', 'customer') or to == 'customer'

    def sent(self, sender, entry, receiver):
        """What is told over a link: the entry as the sender holds it, or None."""
        if entry is None or not self.exports(sender, entry, self.near[sender][receiver]):
            return None
        return entry

    def offer(self, prefix, sender, message, receiver):
        """(rank of the offer, entry) that a told entry makes the receiver, or None."""
        if message is None or receiver in message.path:
            return None
        rel = self.near[receiver][sender]
        number = message.number
        if number is None and self.marks(sender) and rel in ('provider', 'peer'):
            number = sender
        policy, state = self.policy(receiver), self.state(prefix, message.path[-1])
        if policy.startswith('drop-invalid') and state == 'invalid':
            return None
        if self.marks(receiver) and number is not None:
            if rel == 'customer' or (rel == 'peer' and number != sender):
                return None
        order = ('customer', 'provider', 'peer') if policy == 'provider-first' else CLASSES
        rank = (order.index(rel), policy == 'prefer-valid' and state != 'valid', len(message.path) + 1, sender)
        if number is None and self.marks(receiver) and rel in ('provider', 'peer'):
            number = sender
        return rank, Entry(rel, (receiver,) + message.path, number)

    def right(self, prefix, seeds, told, asn):
        """The entry with which an AS is right, where told gives what each neighbour tells it, or None."""
        if asn in seeds:
            return seeds[asn]
        offers = [self.offer(prefix, near, told(near, asn), asn) for near in self.near[asn]]
        offers = [it for it in offers if it is not None]
        return min(offers)[1] if offers else None

    def acted(self, prefix, seeds, held, asn):
        """The entry of an AS after its turn, where the others hold this."""
        return self.right(prefix, seeds, lambda near, to: self.sent(near, held.get(near), to), asn)

    def seeds(self, prefix, number, before):
        """The announced paths, and those that the leakers of the round hold in the round before."""
        found = {asn: Entry('origin', tuple(path), None)
                 for (of, asn), path in self.world.announced.items() if of == prefix}
        for asn in self.world.leaks[number - 2] if number > 1 else []:
            entry = before.get(asn)
            if asn not in found and entry is not None and entry.kind in ('peer', 'provider'):
                found[asn] = entry._replace(kind='origin')
        return found

    def settled(self, prefix, seeds):
        held, changed = {}, True
        while changed:
            changed = False
            for asn in self.ases:
                entry = self.acted(prefix, seeds, held, asn)
                if entry != held.get(asn):
                    changed = True
                    put(held, asn, entry)
        return held

    def is_stable(self, prefix, seeds, held):
        return all(self.acted(prefix, seeds, held, asn) == held.get(asn) for asn in self.ases)

    def rounds(self, prefix):
        """(seeds, stable routing) of each round."""
        found, before = [], {}
        for number in range(1, len(self.world.leaks) + 2):
            seeds = self.seeds(prefix, number, before)
            before = self.settled(prefix, seeds)
            found.append((seeds, before))
        return found

    def tables(self, number, address):
        """(prefix, stable routing of a round) for each prefix that holds the address, the longest first."""
        holding = [prefix for prefix in self.world.prefixes
                   if ipaddress.ip_address(address) in ipaddress.ip_network(prefix)]
        holding.sort(key=lambda prefix: -ipaddress.ip_network(prefix).prefixlen)
        return [(prefix, self.rounds(prefix)[number - 1][1]) for prefix in holding]

    def end(self, tables, asn):
        """Where the packets of an AS end: the AS at which they are delivered, 'no-route' or 'loop'."""
        seen = set()
        while asn not in seen:
            seen.add(asn)
            found = next((it for it in tables if asn in it[1]), None)
            if found is None:
                return 'no-route'
            prefix, held = found
            if (prefix, asn) in self.world.announced:
                return asn
            asn = held[asn].path[1]
        return 'loop'

    def ends(self, number, address):
        """The ends of the packets of all ASes in a round."""
        tables = self.tables(number, address)
        return [self.end(tables, asn) for asn in self.ases]

    def height(self):
        below = {}

        def longest(asn):
            if asn not in below:
                customers = [near for near, rel in self.near[asn].items() if rel == 'customer']
                below[asn] = 1 + max(map(longest, customers), default=0)
            return below[asn]
        return max(map(longest, self.ases), default=0)

    def pieces(self, acts):
        """How many times in turn the list goes over all ASes."""
        count, left = 0, set(self.ases)
        for asn in acts:
            left.discard(asn)
            if not left:
                count, left = count + 1, set(self.ases)
        return count


def put(held, asn, entry):
    if entry is None:
        held.pop(asn, None)
    else:
        held[asn] = entry


def row(asn, entry):
    if entry is None:
        return '%d|none|\n' % asn
    number = '' if entry.number is None else '|otc %d' % entry.number
    return '%d|%s|%s%s\n' % (asn, entry.kind, ' '.join(map(str, entry.path)), number)


def rows(model, held):
    return ''.join(row(asn, held.get(asn)) for asn in model.ases)

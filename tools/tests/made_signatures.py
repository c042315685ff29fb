"""Keys and signatures of parties as docs/FORMATS.md and RFC 8554 have them, in Python alone: with them a test says what no honest party does."""
import functools
import hashlib
import struct

# the domains of RFC 8554
MESSAGE, PUBLIC, LEAF, INNER = 0x8181, 0x8080, 0x8282, 0x8383

# the levels of a tree by its LMS type; the bits of a digit by the LM-OTS type, with the number of chains and the shift of the checksum
LEVELS = {5: 5, 6: 10, 7: 15}
DIGITS = {1: (1, 265, 7), 2: (2, 133, 6), 3: (4, 67, 4), 4: (8, 34, 0)}


def hashed(*parts):
    return hashlib.sha256(b"".join(parts)).digest()


class Tree:
    """A key of one tree, by its types, its name and its seed."""

    def __init__(self, lms, ots, name, seed):
        self.lms, self.ots, self.name, self.seed = lms, ots, name, seed
        self.width, self.chains, self.shift = DIGITS[ots]
        self.leaves = 1 << LEVELS[lms]

    def digits_of(self, hash_):
        """The digits of a hash and of its checksum."""
        most, per_byte = (1 << self.width) - 1, 8 // self.width

        def digits(data, count):
            return [data[at // per_byte] >> (8 - self.width * (at % per_byte + 1)) & most for at in range(count)]

        own = digits(hash_, 8 * len(hash_) // self.width)
        checksum = sum(most - digit for digit in own) << self.shift
        return own + digits(checksum.to_bytes(2, "big"), self.chains - len(own))

    def chained(self, leaf, chain, value, first, last):
        """The value of a chain, from one step to another."""
        front = self.name + struct.pack(">IH", leaf, chain)
        for step in range(first, last):
            value = hashed(front, bytes([step]), value)
        return value

    def started(self, leaf, chain):
        return hashed(self.name, struct.pack(">IHB", leaf, chain, 0xFF), self.seed)

    @functools.cached_property
    def nodes(self):
        """The nodes of the tree, of which node 1 is the root."""
        nodes = [b""] * (2 * self.leaves)
        for leaf in range(self.leaves):
            most = (1 << self.width) - 1
            ends = [self.chained(leaf, chain, self.started(leaf, chain), 0, most) for chain in range(self.chains)]
            one_time = hashed(self.name, struct.pack(">IH", leaf, PUBLIC), *ends)
            at = self.leaves + leaf
            nodes[at] = hashed(self.name, struct.pack(">IH", at, LEAF), one_time)
        for at in range(self.leaves - 1, 0, -1):
            nodes[at] = hashed(self.name, struct.pack(">IH", at, INNER), nodes[2 * at], nodes[2 * at + 1])
        return nodes

    @property
    def public(self):
        return struct.pack(">II", self.lms, self.ots) + self.name + self.nodes[1]

    def signed(self, leaf, randomizer, message):
        """The signature of a message."""
        hash_ = hashed(self.name, struct.pack(">IH", leaf, MESSAGE), randomizer, message)
        values = [self.chained(leaf, chain, self.started(leaf, chain), 0, digit) for chain, digit in enumerate(self.digits_of(hash_))]
        path, at = [], self.leaves + leaf
        while at > 1:
            path.append(self.nodes[at ^ 1])
            at //= 2
        return b"".join([struct.pack(">II", leaf, self.ots), randomizer, *values, struct.pack(">I", self.lms), *path])


@functools.lru_cache(maxsize=None)
def tree_of(*parts):
    """A key of one tree, which is made once."""
    return Tree(*parts)


class Signer:
    """The key of a party of a session, of one level, or of two where the session has the type of an upper tree."""

    def __init__(self, session, secret):
        self.session, self.secret = session, secret

    def tagged(self, tag, *parts):
        return hashed(tag, bytes.fromhex(self.session.id), *parts)

    @property
    def tree(self):
        """The tree of a key of one level, or the upper one."""
        name, seed = self.tagged(b"IDN1", self.secret)[:16], self.tagged(b"SED1", self.secret)
        return tree_of(self.session.top or self.session.lms, self.session.ots, name, seed)

    def lower(self, leaf):
        """The tree below an upper leaf."""
        told = struct.pack(">I", leaf), self.secret
        return tree_of(self.session.lms, self.session.ots, self.tagged(b"IDN2", *told)[:16], self.tagged(b"SED2", *told))

    def randomizer(self, tag, leaf):
        return self.tagged(tag, struct.pack(">I", leaf), self.secret)

    @property
    def public(self):
        return (struct.pack(">I", 2) if self.session.top else b"") + self.tree.public

    def signature(self, leaf, message):
        """The signature of a message by a leaf."""
        if not self.session.top:
            return self.tree.signed(leaf, self.randomizer(b"RND1", leaf), message)
        above, below = divmod(leaf, 32)
        lower = self.lower(above)
        upper = self.tree.signed(above, self.randomizer(b"RND2", above), lower.public)
        return struct.pack(">I", 1) + upper + lower.public + lower.signed(below, self.randomizer(b"RND1", leaf), message)

    def signed(self, leaf, message):
        """A message with its signature by a leaf."""
        return message + self.signature(leaf, message)

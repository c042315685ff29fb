"""Briefcases: how they are encrypted and decrypted, and what a key opens of a CASE."""
import hashlib
import struct
from collections.abc import Mapping

from gossip.formats.datagrams import Case, Exchange, Update
from gossip.formats.files import Session
from gossip.formats.grammar import BLOCK_SIZE, JUNK_SIZE

# the first words of ChaCha20's state
CONSTANTS = struct.unpack("<4I", b"expand 32-byte k")

# the words of the state that a quarter round mixes: the columns, then the diagonals
QUARTERS = [(0, 4, 8, 12), (1, 5, 9, 13), (2, 6, 10, 14), (3, 7, 11, 15), (0, 5, 10, 15), (1, 6, 11, 12), (2, 7, 8, 13), (3, 4, 9, 14)]


def quarter_round(state: list[int], quarter: tuple[int, int, int, int], low: int) -> None:
    """Mixes four words of the state. Of each 64 bits the low 32 are a word, and the others are room for carries."""
    a, b, c, d = quarter
    for sum_, added, mixed, left in ((a, b, d, 16), (c, d, b, 12), (a, b, d, 8), (c, d, b, 7)):
        state[sum_] = state[sum_] + state[added] & low
        word = state[mixed] ^ state[sum_]
        state[mixed] = (word << left | word >> 32 - left) & low


def keystream(key: bytes, size: int) -> bytes:
    """Returns this many bytes of ChaCha20's keystream. Blocks are computed at once: one number holds a word of each, in 64 bits."""
    blocks = -(-size // 64)
    ones = int.from_bytes(struct.pack(f"<{blocks}Q", *[1] * blocks), "little")
    places = int.from_bytes(struct.pack(f"<{blocks}Q", *range(blocks)), "little")
    start = [word * ones for word in (*CONSTANTS, *struct.unpack("<8I", key))] + [places, 0, 0, 0]
    state, low = list(start), 0xFFFFFFFF * ones
    for quarter in QUARTERS * 10:
        quarter_round(state, quarter, low)
    sums = [(word + first & low).to_bytes(8 * blocks, "little") for word, first in zip(state, start)]
    columns = [struct.unpack(f"<{blocks}Q", sum_) for sum_ in sums]
    return b"".join(struct.pack("<16I", *words) for words in zip(*columns))[:size]


def exclusive_or(one: bytes | memoryview, other: bytes) -> bytes:
    return (int.from_bytes(one, "big") ^ int.from_bytes(other, "big")).to_bytes(len(one), "big")


def junk_of(session: Session, exchange: Exchange, count: int) -> bytes:
    """Returns this many junk items of an exchange."""
    key = hashlib.sha256(b"JNK1" + bytes.fromhex(session.id) + exchange.spelled()).digest()
    return keystream(key, JUNK_SIZE * count)


def opened(session: Session, case: Case, key: bytes, digests: Mapping[Update, bytes]) -> dict[Update, bytes] | None:
    """Returns the blocks of the updates that a key opens of a CASE, or None if one of the items isn't what was promised."""
    plain = exclusive_or(case.cipher, keystream(key, len(case.cipher)))
    blocks = {update: plain[BLOCK_SIZE * at : BLOCK_SIZE * (at + 1)] for at, update in enumerate(case.promise.updates)}
    well = all(hashlib.sha256(block).digest() == digests.get(update) for update, block in blocks.items())
    junk = plain[BLOCK_SIZE * len(blocks) :]
    return blocks if well and (not junk or junk == junk_of(session, case.exchange, case.promise.junk)) else None

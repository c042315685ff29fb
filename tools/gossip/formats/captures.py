"""Writes a capture of a session for Wireshark: what peers took by their recordings, as UDP packets over the loopback address."""
import heapq
import struct
from collections.abc import Iterator, Mapping
from typing import BinaryIO

from gossip.formats.files import Malformed, Session, entries_of, head_of

# the file's head: the format with microseconds, version 2.4, the longest packet, and that packets begin with their IP header
HEAD = struct.pack("<IHHiIII", 0xA1B2C3D4, 2, 4, 0, 0, 1 << 18, 101)
ADDRESS, UDP, TIME_TO_LIVE = bytes([127, 0, 0, 1]), 17, 64
IP_SIZE, UDP_SIZE = 20, 8


def checksum(head: bytes) -> int:
    """Returns the checksum of an IP header."""
    total = sum(struct.unpack(f">{len(head) // 2}H", head))
    while total > 0xFFFF:
        total = (total >> 16) + (total & 0xFFFF)
    return total ^ 0xFFFF


def packet_of(source: int, target: int, datagram: bytes) -> bytes:
    """Returns a datagram from one port to another as a packet."""
    size = UDP_SIZE + len(datagram)
    parts = 0x45, 0, IP_SIZE + size, 0, 0, TIME_TO_LIVE, UDP
    head = struct.pack(">BBHHHBB", *parts) + b"\0\0" + ADDRESS + ADDRESS
    head = head[:10] + struct.pack(">H", checksum(head)) + head[12:]
    return head + struct.pack(">HHHH", source, target, size, 0) + datagram


def record_of(time: int, packet: bytes) -> bytes:
    """Returns the record of a packet in a capture, at this time in microseconds."""
    return struct.pack("<IIII", *divmod(time, 1_000_000), len(packet), len(packet)) + packet


def packets_of(session: Session, party: int, recording: bytes) -> Iterator[tuple[int, bytes]]:
    """Yields the packets that a peer took, each with its time in microseconds since the first tick.

    The datagrams after a tick are spread evenly over the time up to the next one. If a datagram doesn't name its sender, its port is 0.
    """
    entries, _ = entries_of(recording)
    tick, behind = 0, []
    for entry in [*entries, None]:
        if entry is not None:
            behind.append(entry)
            continue
        for at, datagram in enumerate(behind, 1):
            time = 1000 * session.tick_ms * (tick - 1) + 1000 * session.tick_ms * at // (len(behind) + 1)
            head = head_of(datagram, session)
            yield max(0, time), packet_of(session.port + head.sender if head else 0, session.port + party, datagram)
        tick, behind = tick + 1, []


def write_capture(file: BinaryIO, session: Session, recordings: Mapping[int, bytes], begin: int = 0) -> int:
    """Writes the capture of these recordings, by party, with its begin in milliseconds of Unix time. Returns how many packets it has."""
    for party, recording in recordings.items():
        if recording[:4] != b"BARL" or recording[5:13].hex() != session.id:
            raise Malformed(f"the recording of party {party} is none of this session")
    count = 0
    file.write(HEAD)
    of_peers = [packets_of(session, party, recording) for party, recording in recordings.items()]
    for time, packet in heapq.merge(*of_peers, key=lambda it: it[0]):
        file.write(record_of(1000 * begin + time, packet))
        count += 1
    return count

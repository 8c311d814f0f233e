#!/usr/bin/env python3
"""Decodes the coded streams in a file of space packets. Each data field is a stream of its own:

    space_packets.py read AEC FILE FOLDER SECONDARY OPTIONS..

SECONDARY is the length of the secondary header in bytes, for packets whose header says that they
have one. OPTIONS are those of aec, with --count. Makes FOLDER, which must not exist, and writes the
samples of each packet into it as APID_PACKET.raw. Packets are counted from 0 in FILE.

Prints a line for each gap in the sequence counts, and for each packet that can't be decoded. A
packet that can't be decoded is skipped, and the status is then 1. A segment of a longer stream
(sequence flags other than 3) can't be decoded. Idle packets are skipped too. The standard's
compression identification packet isn't read.
"""

import os
from typing import NamedTuple

from aec_runs import (
    Refused,
    judge_options,
    perform,
    read_file,
    require_aec,
    run_aec,
    whole_number,
    write_whole,
)

PRIMARY = 6  # bytes of the primary header
IDLE = 0x7FF  # the APID of idle packets, the greatest
COUNTS = 1 << 14  # where the sequence count begins at 0 again
WHOLE = 3  # the sequence flags of a packet that isn't a segment


class Packet(NamedTuple):
    """A packet, and its number in the file."""

    number: int
    apid: int
    has_secondary: bool
    flags: int
    sequence: int
    field: bytes  # all after the primary header

    def stream(self, secondary):
        """Returns the data field without its secondary header, if it has one. `secondary` is the
        header's length. Refuses a segment."""
        if self.flags != WHOLE:
            raise Refused("it is a segment of a longer stream; segments aren't joined")
        return self.field[secondary:] if self.has_secondary else self.field

    def name(self):
        """Returns how messages name the packet."""
        return f"packet {self.number} (APID {self.apid}, sequence count {self.sequence})"


def packets_of(data):
    """Yields the packets of a file. Refuses a packet that is cut, and bytes that aren't a packet:
    no packet can be found after them."""
    first, number = 0, 0
    while first < len(data):
        head = data[first : first + PRIMARY]
        identity, sequence, length = (int.from_bytes(head[i : i + 2], "big") for i in (0, 2, 4))
        end = first + PRIMARY + length + 1
        if identity >> 13 != 0:
            what = f"packet {number}: at byte {first} no space packet begins"
            raise Refused(f"{what}; the rest of the file isn't read")
        if end > len(data):
            raise Refused(f"packet {number}: it is cut, at byte {first} of the file")
        has_secondary, field = identity >> 11 & 1 == 1, data[first + PRIMARY : end]
        flags, count = divmod(sequence, COUNTS)
        yield Packet(number, identity & IDLE, has_secondary, flags, count, field)
        first, number = end, number + 1


def skipped(packet, expected):
    """Returns a text if packets are missing before this packet, else None. `expected` has the next
    sequence count of each APID, and is updated."""
    missing = (packet.sequence - expected.get(packet.apid, packet.sequence)) % COUNTS
    expected[packet.apid] = (packet.sequence + 1) % COUNTS
    return f"{packet.name()}: {missing} before it are missing" if missing else None


def read(aec, file, folder, secondary, *options):
    """Decodes each packet of a file. Returns the status."""
    length = whole_number(secondary, "length of a secondary header")
    require_aec(aec)
    judge_options(aec, options)
    data = read_file(file)
    os.mkdir(folder)
    decoded, failed, expected = 0, 0, {}
    try:
        for packet in packets_of(data):
            if packet.apid == IDLE:
                continue
            if text := skipped(packet, expected):
                print(text)
            try:
                samples = run_aec(aec, ["-d", *options], packet.stream(length))
            except Refused as refusal:
                print(f"{packet.name()}: {refusal}")
                failed += 1
                continue
            write_whole(os.path.join(folder, f"{packet.apid:04}_{packet.number:06}.raw"), samples)
            decoded += 1
    except Refused as refusal:
        print(refusal)
        failed += 1
    print(f"{decoded} packets decoded, {failed} not")
    return 1 if failed else 0


if __name__ == "__main__":
    perform(__doc__, read=read)

"""Makes the pcap files that bench/run has imported: pcap_files.py FOLDER

Each has 1,048,576 bytes or a few less, of packets of one length; every so many of them is a packet over IP or over UDP for the card, and the others go
past it (TCP). `none.pcap` has no record: what starting the program takes is in it alone. Prints for each file its name, its bytes and how many bytes of
data are kept of it."""
import pathlib
import struct
import sys

SIZE = 1 << 20
HEADER = struct.pack("<IHHIIII", 0xA1B2C3D4, 2, 4, 0, 0, 65535, 1)


def packet(protocol, payload):
    ip = struct.pack(">BBHHHBBHII", 0x45, 0, 20 + len(payload), 0, 0, 64, protocol, 0, 0xC0000201, 0xC0000202)
    return bytes(12) + b"\x08\x00" + ip + payload


def data_over_ip(size):
    return packet(115, bytes(size - 34)), size - 34


def data_over_udp(size):
    body = bytes(size - 42)
    return packet(17, struct.pack(">HHHH", 1701, 1701, 8 + len(body), 0) + body), len(body)


def other(size):
    return packet(6, bytes(size - 34)), 0


def file_of(size, every):
    """Packets of this size, of which one in `every` is kept, over IP and over UDP in turn."""
    parts, kept, k = [HEADER], 0, 0
    while len(HEADER) + (k + 1) * (16 + size) <= SIZE:
        make = (data_over_ip if k // every % 2 == 0 else data_over_udp) if k % every == 0 else other
        bytes_, body = make(size)
        parts.append(struct.pack("<IIII", 0, 0, size, size) + bytes_)
        kept, k = kept + body, k + 1
    return b"".join(parts), kept


def main(folder):
    files = {"none": (HEADER, 0), "long": file_of(1514, 20), "medium": file_of(300, 20), "short": file_of(60, 16)}
    for name, (bytes_, kept) in files.items():
        (pathlib.Path(folder) / f"{name}.pcap").write_bytes(bytes_)
        print(name, len(bytes_), kept)


main(sys.argv[1])

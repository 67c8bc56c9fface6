#!/usr/bin/env python3
"""Asks a slave over the TCP connection of a streaming gateway, some requests one behind the other, and prints the replies.

    python3 examples/stream.py [COUNT [STATION [INDEX [SUBINDEX]]]]     1, 0x1001, 0x2000 and 1 where they are left out

The requests are sent in pieces of seven octets, which mean nothing: each is a datagram of gateway.py, and ends where its header says.
"""
import socket
import struct
import sys

from gateway import GATEWAY, reply_text, request

PIECE = 7


def replies(stream):
    """The datagrams of a connection, each cut off by its header."""
    while head := stream.read(2):
        yield head + stream.read(struct.unpack("<H", head)[0] & 0x7FF)


def main():
    numbers = [int(word, 0) for word in sys.argv[1:]]
    count, station, index, subindex = numbers + [1, 0x1001, 0x2000, 1][len(numbers) :]
    octets = b"".join(request(station, number % 7 + 1, index, subindex) for number in range(count))
    with socket.create_connection(GATEWAY, timeout=5) as connection:
        connection.setsockopt(socket.IPPROTO_TCP, socket.TCP_NODELAY, 1)
        for at in range(0, len(octets), PIECE):
            connection.sendall(octets[at : at + PIECE])
        connection.shutdown(socket.SHUT_WR)
        for datagram in replies(connection.makefile("rb")):
            print(reply_text(datagram))


if __name__ == "__main__":
    main()

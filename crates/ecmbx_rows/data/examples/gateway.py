#!/usr/bin/env python3
"""Asks a slave of a serving for an SDO upload by UDP and prints the reply.

    python3 examples/gateway.py [STATION [INDEX [SUBINDEX]]]     0x1001, 0x2000 and 1 where they are left out

A request is a frame header of type 5 (the length of what follows in its low 11 bits), then one mail: the length of its body, the station,
a word of channel and priority, a word with the type in its low four bits and the counter above them. The body is CoE's SDO service.
"""
import socket
import struct
import sys

GATEWAY = ("127.0.0.1", 34980)
COE, ERROR = 3, 0
SDO_REQUEST, SDO_RESPONSE = 2 << 12, 3 << 12
UPLOAD, ABORT = 0x40, 0x80


def request(station, counter, index, subindex):
    """The datagram that asks for an upload."""
    body = struct.pack("<HBHB4x", SDO_REQUEST, UPLOAD, index, subindex)
    mail = struct.pack("<HHBB", len(body), station, 0, counter << 4 | COE) + body
    return struct.pack("<H", 5 << 12 | len(mail)) + mail


def reply_text(datagram):
    """What a reply says, in words."""
    length, station, _, kind = struct.unpack_from("<HHBB", datagram, 2)
    body = datagram[8 : 8 + length]
    head = f"station {station:04x} counter {kind >> 4 & 7}"
    if kind & 15 == ERROR:
        return f"{head} mailbox error {struct.unpack_from('<H', body, 2)[0]:04x}"
    service, command, index, subindex = struct.unpack_from("<HBHB", body)
    if kind & 15 != COE or service != SDO_RESPONSE and command != ABORT:
        return f"{head} type {kind & 15} body {body.hex()}"
    if command == ABORT:
        return f"{head} {index:04x}:{subindex:02x} abort {struct.unpack_from('<I', body, 6)[0]:08x}"
    if command & 2:
        return f"{head} {index:04x}:{subindex:02x} value {body[6 : 10 - (command >> 2 & 3)].hex()}"
    return f"{head} {index:04x}:{subindex:02x} value {body[10:].hex()}"


def main():
    numbers = [int(word, 0) for word in sys.argv[1:]]
    station, index, subindex = numbers + [0x1001, 0x2000, 1][len(numbers) :]
    with socket.socket(socket.AF_INET, socket.SOCK_DGRAM) as port:
        port.settimeout(5)
        port.sendto(request(station, 1, index, subindex), GATEWAY)
        try:
            print(reply_text(port.recv(2048)))
        except TimeoutError:
            sys.exit("no reply: is the gateway serving?")


if __name__ == "__main__":
    main()

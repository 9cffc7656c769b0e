#!/usr/bin/env python3
"""Follows a relay to its newest window and prints each change: follow.py PORT [FILTER [SCN]]"""
import http.client
import struct
import sys
import urllib.parse

PUT, MARK, NOT_FOUND, EMPTY = 0x01, 0x03, 0x20, 0x21


def ask(relay, scn, rows):
    query = {"scn": scn, "filter": rows, "max": 1 << 20}  # the largest window fits
    relay.request("GET", "/stream?" + urllib.parse.urlencode(query))
    answer = relay.getresponse()
    body = answer.read()
    return body if answer.status == 200 else sys.exit(f"refused: {answer.status} {answer.reason}")


def print_windows(body):
    """Prints the changes of a reply's windows, and gives the SCN of the last one."""
    at, scn = 0, 0
    while at < len(body):
        if body[at] == MARK:
            (scn,) = struct.unpack_from(">Q", body, at + 1)
            at += 17
        else:
            source, scn, key, size = struct.unpack_from(">HQQI", body, at + 1)
            put = "=" + body[at + 23 : at + 23 + size].hex() if body[at] == PUT else "-"
            print(scn, f"{source}/{key}{put}")
            at += 23 + size
    return scn


port, rows, scn = (sys.argv[1:] + ["all", "0"][len(sys.argv) - 2 :])[:3]
relay = http.client.HTTPConnection("127.0.0.1", int(port))
while (body := ask(relay, scn, rows))[0] != EMPTY:
    if body[0] == NOT_FOUND:
        sys.exit(f"the windows up to {struct.unpack('>Q', body[1:])[0]} are gone: ask the bootstrap")
    scn = print_windows(body)

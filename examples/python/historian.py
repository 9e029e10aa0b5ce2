#!/usr/bin/env python3
"""Reads nodes of an OPC UA server on this machine again and again: historian.py LIBRARY PORT ROUNDS SECONDS NODE..

A line is printed for each value that is another than the last one of its node, by value, status and source time: the node,
the source time in units of 100 nanoseconds since 1601 (`-` where there is none), the status, and the number or the list of
numbers that the value is, or its type and text. So many rounds are read, so many seconds apart. LIBRARY is a shared object,
as of read.py.
"""
from __future__ import annotations

import sys
import time

from read import Line, ua


def text_of(reading: ua.Reading) -> str:
    """A number, or a list of them, else the type and the text; `-` where there is no value."""
    if reading.value is None:
        return '-'
    return str(reading.number) if reading.number is not None else ua.decode(reading.value)


def main() -> None:
    rounds, seconds, nodes = int(sys.argv[3]), float(sys.argv[4]), sys.argv[5:]
    line = Line(int(sys.argv[2]))
    token = ua.session_token(line.ask('create_session', line.client.url))
    line.ask('activate_session', token)
    last: dict[str, tuple[object, ...]] = {}
    for number in range(rounds):
        time.sleep(seconds if number else 0)
        for node, reading in zip(nodes, ua.readings(line.ask('read', token, '\n'.join(nodes), ''))):
            now = (reading.value, reading.status, reading.source_time)
            if last.get(node) != now:
                print(node, '-' if reading.source_time is None else reading.source_time, '%08X' % (reading.status or 0), text_of(reading))
            last[node] = now
    line.ask('close_session', token)
    line.close()


main()

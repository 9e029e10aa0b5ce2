#!/usr/bin/env python3
"""Prints the Values of nodes of an OPC UA server on this machine: read.py LIBRARY PORT NODE..

LIBRARY is a shared object that is made of the static library by one line, which docs/C.md has. What is
printed is what `ua read` prints. Nothing but python/ua.py, which stands over ctypes, and a socket.
"""
from __future__ import annotations

import os
import socket
import sys

os.environ['UA_LIBRARY'] = os.path.abspath(sys.argv[1])
sys.path.insert(0, os.path.join(os.path.dirname(os.path.abspath(__file__)), '../../python'))
sys.dont_write_bytecode = True
import ua  # noqa: E402

# A status code is bad from here on.
BAD = 0x80000000
NAME = os.path.basename(sys.argv[0])


class Line:
    """A client and the socket to its server, whose channel is open."""

    def __init__(self, port: int) -> None:
        self.client = ua.Client('opc.tcp://localhost:%d' % port)
        self.socket = socket.create_connection(('127.0.0.1', port))
        self.came = b''
        self.wait_for('OPEN', self.client.hello())

    def wait_for(self, wanted: str, octets: bytes) -> bytes:
        """Sends octets, and takes what the server sends until this event. Hands back the octets that come with it."""
        event = 'SEND'
        while event != wanted:
            if event == 'SEND':
                self.socket.sendall(octets)
            elif event != 'NEED_MORE':
                sys.exit('%s: %s' % (NAME, event))
            self.came = self.came or self.socket.recv(65536)
            if not self.came:
                sys.exit('%s: the server ended' % NAME)
            taken, event, _, code, octets = self.client.take(self.came)
            self.came = self.came[taken:]
            if code:
                sys.exit('%s: %s %08X' % (NAME, event, code))
        return octets

    def ask(self, name: str, *texts: str) -> bytes:
        """The body of the reply to a request."""
        body = self.wait_for('ANSWERED', self.client.ask(self.client.request(name, *texts)))
        result = ua.response_kind(body)[1]
        if result >= BAD:
            sys.exit('%s: %s: %08X' % (NAME, name, result))
        return body

    def close(self) -> None:
        self.socket.sendall(self.client.end())
        self.socket.close()
        self.client.close()


def main() -> None:
    nodes = sys.argv[3:]
    line = Line(int(sys.argv[2]))
    token = ua.session_token(line.ask('create_session', line.client.url))
    line.ask('activate_session', token)
    print(ua.response_text(nodes, line.ask('read', token, '\n'.join(nodes), '')), end='')
    line.ask('close_session', token)
    line.close()


if __name__ == '__main__':
    main()

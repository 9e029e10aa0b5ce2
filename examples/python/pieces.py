#!/usr/bin/env python3
"""Steps a connection over one piece of 2 MB of small requests: pieces LIBRARY. It prints how many were answered.

It ends with the status 1 where that takes over 20 seconds: a step takes time for its own frame, and not for those behind it.
"""
from __future__ import annotations

import os
import struct
import sys
import time

os.environ["UA_LIBRARY"] = sys.argv[1]
sys.path.insert(0, os.path.join(os.path.dirname(os.path.abspath(__file__)), "..", "..", "python"))
import ua

URL = "opc.tcp://localhost:4840"
nodes = ua.Nodes("ns=1;s=Pump\trw\tPump\tInt32\t5\n", URL)
client, connection = ua.Client(URL), ua.Connection(1)
ua.talk(client, connection, nodes, 2)
token = ua.session_token(ua.talk(client, connection, nodes, 2, client.request("create_session", URL))[1])
ua.talk(client, connection, nodes, 2, client.request("activate_session", token))
frame = client.ask(client.request("read", token, "ns=1;s=Pump", ""))
number, request = struct.unpack_from("<II", frame, 16)
count = 2000000 // len(frame)
frames = [frame[:16] + struct.pack("<II", number + k, request + k) + frame[24:] for k in range(count)]
start = time.monotonic()
answered = connection.step(nodes, b"".join(frames), 2)
size = struct.unpack_from("<I", answered, 4)[0]
print(len(answered) == count * size, connection.ended)
sys.exit(time.monotonic() - start > 20)

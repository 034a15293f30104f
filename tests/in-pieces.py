#!/usr/bin/env python3
"""in-pieces.py FILE SIZE.. -- COMMAND: runs COMMAND with FILE as its standard input, in pieces of these sizes over and over: each read gets one piece, since
they come as the packets of a socket. Ends with COMMAND's status.
"""
import itertools
import socket
import subprocess
import sys
from pathlib import Path

mark = sys.argv.index("--")
file = Path(sys.argv[1]).read_bytes()
ours, theirs = socket.socketpair(socket.AF_UNIX, socket.SOCK_SEQPACKET)
# the command has descriptors of its own, such as the one that it says its status on
process = subprocess.Popen(sys.argv[mark + 1:], stdin=theirs, close_fds=False)
theirs.close()
at = 0
for size in itertools.cycle(map(int, sys.argv[2:mark])):
    if at >= len(file):
        break
    try:
        ours.send(file[at:at + size])
    except (BrokenPipeError, ConnectionResetError):
        # it has seen enough
        break
    at += size
ours.close()
sys.exit(process.wait())

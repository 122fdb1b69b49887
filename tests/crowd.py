"""A crowd of clients that connect, say nothing, and connect again as soon as they are turned away.

    tests/crowd.py PORT NUMBER

Prints a line when all have come for the first time; when its input ends, how often they came in all.
"""
import selectors
import socket
import sys

PORT, NUMBER = int(sys.argv[1]), int(sys.argv[2])
selector = selectors.DefaultSelector()


def come():
    s = socket.socket()
    s.setblocking(False)
    s.connect_ex(("127.0.0.1", PORT))
    selector.register(s, selectors.EVENT_READ)


def gone(s):
    """Whether the other side has closed the connection."""
    try:
        return not s.recv(64)
    except BlockingIOError:
        return False
    except OSError:
        return True


selector.register(sys.stdin, selectors.EVENT_READ)
for _ in range(NUMBER):
    come()
print("here", flush=True)
count, on = NUMBER, True
while on:
    for key, _ in selector.select():
        if key.fileobj is sys.stdin:
            on = False
        elif gone(key.fileobj):
            selector.unregister(key.fileobj)
            key.fileobj.close()
            come()
            count += 1
print(count)

"""Records the handshake messages of OpenSSL's and GnuTLS's clients, with a pre-shared key, talking to
`openssl s_server`.

A client talks to a server through this script, which keeps what passes in the clear, cuts it into
handshake messages and writes each as a line of hex to tests/recorded/NAME.hex, the client's first. Run
it in tests/; the recordings are kept, so it need not be run again.

The clients are run as they come: they send an empty SessionTicket extension, and get a ticket. In
NAME_no_ticket the client's own switch leaves the extension out. NAME_again is the second login of a
client, which sends the ticket of its first: the extension's data is the ticket itself. Each login has a
server of its own, so the second one knows the ticket no better than ours would, and the handshake is a
whole one. message_vectors.py sees to it that each recording has the extension that its name promises.
"""
import contextlib, socket, subprocess, threading, time

KEY = "00112233445566778899aabbccddeeff"
OURS = ["-tls1_2", "-cipher", "PSK-AES128-CBC-SHA256:PSK-AES128-CBC-SHA:PSK-NULL-SHA256:@SECLEVEL=0"]
PSK = "NORMAL:-VERS-ALL:+VERS-TLS1.2:-KX-ALL:+PSK"
LIMIT = 10  # seconds that a connection may be waited for


def openssl(*words, identity="gate7"):
    return lambda port: ["openssl", "s_client", "-connect", f"127.0.0.1:{port}", "-psk_identity", identity, "-psk", KEY, *words]


def gnutls(priority, *words):
    return lambda port: ["gnutls-cli", *words, "--pskusername", "gate7", "--pskkey", KEY, "--priority", priority, "-p", str(port), "127.0.0.1"]


HINT = ["-psk_hint", "barn"]
CASES = {  # the client, the server's options, and which of the client's logins is recorded
    "openssl": (openssl(), HINT, 1),  # the README's client, which offers TLS 1.3 and every suite of its own
    "openssl_no_hint": (openssl(*OURS, identity="a longer identity than the others"), [], 1),  # no hint, so no ServerKeyExchange
    "openssl_no_ticket": (openssl(*OURS, "-no_ticket"), HINT, 1),
    "openssl_again": (openssl(*OURS, "-reconnect"), HINT, 2),
    "gnutls": (gnutls(PSK + ":+AES-128-CBC:+SHA256:+SHA1"), HINT, 1),
    "gnutls_no_hint": (gnutls(PSK + ":-CIPHER-ALL:+AES-128-CBC"), [], 1),
    "gnutls_no_ticket": (gnutls(PSK + ":-CIPHER-ALL:+AES-128-CBC:%NO_TICKETS"), HINT, 1),
    "gnutls_again": (gnutls(PSK + ":-CIPHER-ALL:+AES-128-CBC", "--resume"), HINT, 2),
}


def pump(source, sink, kept):
    with contextlib.suppress(OSError):  # the other end is gone
        while data := source.recv(65536):
            kept.append(data)
            sink.sendall(data)


def messages(stream):
    """The handshake messages of a direction up to its change of cipher."""
    joined, at = b"", 0
    while at + 5 <= len(stream):
        kind, size = stream[at], int.from_bytes(stream[at + 3 : at + 5], "big")
        if kind != 22:
            break
        joined += stream[at + 5 : at + 5 + size]
        at += 5 + size
    found, at = [], 0
    while at + 4 <= len(joined):
        size = int.from_bytes(joined[at + 1 : at + 4], "big")
        found.append(joined[at : at + 4 + size])
        at += 4 + size
    return found


def started_server(options):
    """A server that has just been started, and its port."""
    words = ["openssl", "s_server", "-accept", "127.0.0.1:0", "-nocert", "-psk", KEY, *OURS, *options]
    serving = subprocess.Popen(words, stdin=subprocess.PIPE, stdout=subprocess.PIPE, stderr=subprocess.DEVNULL, text=True)
    for line in serving.stdout:
        if line.startswith("ACCEPT "):
            return serving, int(line.rpartition(":")[2])
    raise SystemExit("openssl s_server does not listen")


def login(listener, options):
    """The client's next connection is led to a server; that server, and what passes in both directions."""
    near, _ = listener.accept()
    serving, port = started_server(options)
    far = socket.create_connection(("127.0.0.1", port))
    up, down = [], []
    for a, b, kept in ((near, far, up), (far, near, down)):
        threading.Thread(target=pump, args=(a, b, kept), daemon=True).start()
    return serving, (up, down)


def record(name, client, options, count):
    listener = socket.create_server(("127.0.0.1", 0))
    listener.settimeout(LIMIT)
    asking = subprocess.Popen(client(listener.getsockname()[1]), stdin=subprocess.PIPE, stdout=subprocess.DEVNULL, stderr=subprocess.DEVNULL)
    logins = [login(listener, options) for _ in range(count)]
    time.sleep(1)
    for process in [asking, *(serving for serving, _ in logins)]:
        process.kill()
    with open(f"recorded/{name}.hex", "w") as out:
        for stream in logins[-1][1]:
            for message in messages(b"".join(stream)):
                out.write(message.hex() + "\n")


for name, case in CASES.items():
    record(name, *case)

"""Records a session of `openssl s_client` with TLS_PSK_WITH_NULL_SHA256: its records, as they came off the socket.

The client talks to the record layer of record_sessions.py, which has the settings that are kept with the records. Run it in
tests/; the recording is kept, so it need not be run again. It stops with an error where the session is not a whole one.
"""
import socket, subprocess

from handshakes import HIDE, KEYS, STAND_IN, drawn
from record_sessions import RECORDED, RecordServer

HINT, RANDOM = b"barn", drawn("recorded")
CLIENT = ["openssl", "s_client", "-psk_identity", "gate7", "-psk", KEYS[b"gate7"].hex(), "-tls1_2", "-cipher", "PSK-NULL-SHA256:@SECLEVEL=0",
          "-legacy_server_connect", "-quiet", "-no_ign_eof", "-connect"]


def records(peer):
    with peer.makefile("rb") as stream:
        while len(head := stream.read(5)) == 5:
            yield head + stream.read(int.from_bytes(head[3:], "big"))


def main():
    server, kept = RecordServer(), []
    assert server.start(RANDOM, HINT, STAND_IN, HIDE) == "wrote 0"
    with socket.create_server(("127.0.0.1", 0)) as port:
        port.settimeout(10)
        client = subprocess.Popen([*CLIENT, "127.0.0.1:%d" % port.getsockname()[1]], stdin=subprocess.PIPE, stdout=subprocess.PIPE, stderr=subprocess.DEVNULL)
        peer, _ = port.accept()
        with peer:
            peer.settimeout(10)
            client.stdin.write(b"cow 212\n")
            client.stdin.flush()
            for record in records(peer):
                kept.append(record)
                said, answer, _, data = server.take(record, 255, KEYS, True)
                assert said.startswith("wrote"), said
                peer.sendall(answer)
                if data:
                    assert data == b"cow 212\n", data
                    peer.sendall(server.send(b"enrolled cow 212\n", 100)[1])
                    assert client.stdout.readline() == b"enrolled cow 212\n"
                    client.stdin.close()
        assert client.wait(10) == 0
    assert server.server.awaits == "closed" and len(kept) >= 6
    version = subprocess.run(["openssl", "version"], capture_output=True, text=True, check=True).stdout.strip()
    with open(RECORDED, "w", encoding="ascii") as out:
        print(f"# {version}: {' '.join(CLIENT[1:-1])}; see record_null_session.py", file=out)
        print("random", RANDOM.hex(), file=out)
        print("hint", HINT.decode(), file=out)
        for record in kept:
            print("record", record.hex(), file=out)


main()

"""Clients of tests/connections.sh: connections.py PORT CASE reports what became of the clients of a case."""
import socket
import sys
import time

PORT = int(sys.argv[1])
NAMES = b"GET /kms/v1/keys/names?user.name=a HTTP/1.1\r\n\r\n"


def connect(seconds=20):
    client = socket.create_connection(("127.0.0.1", PORT), seconds)
    client.settimeout(seconds)
    return client


def response(client):
    """The status of a response, after reading it whole; None at the end of the stream."""
    got = b""
    while b"\r\n\r\n" not in got:
        part = client.recv(4096)
        if not part:
            return None
        got += part
    head, _, body = got.partition(b"\r\n\r\n")
    length = 0
    for line in head.split(b"\r\n"):
        name, _, value = line.partition(b": ")
        if name.lower() == b"content-length":
            length = int(value)
    while len(body) < length:
        part = client.recv(4096)
        if not part:
            return None
        body += part
    return int(head.split()[1])


def ask(client, request=NAMES):
    client.sendall(request)
    return response(client)


def post(path):
    return b"POST " + path + b" HTTP/1.1\r\nContent-Length: 0\r\n\r\n"


def timed(within):
    """Whether a new client is answered within some seconds."""
    begun = time.monotonic()
    client = connect()
    status = ask(client)
    client.close()
    return status == 200 and time.monotonic() - begun < within


def left():
    stays = connect()
    ask(stays)
    for _ in range(15):
        client = connect()
        ask(client)
        client.close()
    return "answered at once" if timed(3) and ask(stays) == 200 else "not answered"


def idle():
    clients = []
    for _ in range(16):
        clients.append(connect())
        ask(clients[-1])
        time.sleep(0.02)
    if not timed(3):
        return "not answered"
    ends = clients[0].recv(1) == b""
    rest = all(ask(client) == 200 for client in clients[1:])
    return "answered at once, the first one found the end" if ends and rest else "answered, the first one %s" % ends


def slowly():
    clients = [connect() for _ in range(16)]
    for client in clients[:15]:
        client.sendall(NAMES[:5])
    ask(clients[15])
    answered = 0
    for k in range(4):
        time.sleep(1)
        for client in clients[:15]:
            client.sendall(NAMES[5 + k:6 + k])
        answered += timed(3)
    for client in clients[:15]:
        client.sendall(NAMES[9:])
    whole = all(response(client) == 200 for client in clients[:15])
    return "answered" if answered == 4 and whole else "answered %d, whole %s" % (answered, whole)


def one():
    first = connect()
    good = ask(first) == 200
    for _ in range(5):
        client = connect()
        good = good and ask(client) == 200
        client.close()
    good = good and first.recv(1) == b""
    return "each was answered, one after another" if good else "not answered"


def thousand():
    clients = [connect(30) for _ in range(1000)]
    good = all(ask(client) == 200 for client in clients)
    good = good and all(ask(client) == 200 for client in clients)
    return "all were answered twice" if good else "not answered"


def failing():
    """Makes directories until a sync fails. Each request is answered, and then the connection ends."""
    client = connect()
    statuses = []
    for k in range(20):
        status = ask(client, post(b"/nn/v1/mkdir?path=/d%d&user.name=a" % k))
        statuses.append(status)
        if status != 200:
            break
    refused = statuses[-1] is not None and statuses[-1] >= 500
    ended = client.recv(1) == b""
    return "the requests were answered" if refused and ended else str(statuses)


def listener():
    """Creates a key, and makes connections until the server takes no more."""
    client = connect()
    body = b'{"name":"k"}'
    made = ask(client, b"POST /kms/v1/keys?user.name=a HTTP/1.1\r\nContent-Length: %d\r\n\r\n%s" % (len(body), body))
    client.close()
    for _ in range(20):
        try:
            client = connect()
            status = ask(client)
            client.close()
        except OSError:
            status = None
        if status is None:
            return "the key was made, and then the server was gone" if made == 201 else "the key was not made: %s" % made
    return "each was answered"


print(globals()[sys.argv[2]]())

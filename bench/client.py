"""A client for bench/serve where `wrk` or `ab` is not there. It is slower than the servers, so the ratios lean towards 1.

    python3 bench/client.py PORT CONNECTIONS SECONDS METHOD TARGET BODY CONNECTION

It prints the line of bench/load.lua, and ends early at SIGINT.
"""

import concurrent.futures
import os
import selectors
import signal
import socket
import sys
import time

stopped = False


def stop(*_):
    global stopped
    stopped = True


class Connection:
    """A connection on which one request after another is sent."""

    def __init__(self, port, keeps, selector, requests):
        self.port, self.keeps, self.selector, self.requests = port, keeps, selector, requests
        self.open()

    def open(self):
        self.socket = socket.create_connection(("127.0.0.1", self.port))
        self.socket.setsockopt(socket.IPPROTO_TCP, socket.TCP_NODELAY, 1)
        self.selector.register(self.socket, selectors.EVENT_READ, self)
        self.send()

    def send(self):
        self.received = b""
        self.start = time.perf_counter()
        self.socket.sendall(next(self.requests))

    def close(self):
        self.selector.unregister(self.socket)
        self.socket.close()

    def is_answered(self):
        head, empty_line, body = self.received.partition(b"\r\n\r\n")
        if not empty_line:
            return False
        lines = head.lower().split(b"\r\n")
        length = next(int(line.split(b":")[1]) for line in lines if line.startswith(b"content-length:"))
        return len(body) >= length

    def receive(self):
        """Reads a piece. Returns the time that a response took and whether it is a success, once it is there."""
        piece = self.socket.recv(65536)
        self.received += piece
        if piece and not self.is_answered():
            return None
        answer = time.perf_counter() - self.start, self.received[9:10] == b"2"
        if piece and self.keeps:
            self.send()
        else:
            self.close()
            self.open()
        return answer


def numbered(process, method, target, body, connection):
    """The requests of a process, each with another text for {n}."""
    sent = 0
    while True:
        sent += 1
        path, content = (text.replace("{n}", f"{process}-{sent}") for text in (target, body))
        head = f"{method} {path} HTTP/1.1\r\nHost: localhost\r\nConnection: {connection}\r\nContent-Length: {len(content)}\r\n\r\n"
        yield (head + content).encode()


def drive(process, port, connections, seconds, message):
    """Sends requests on some connections. Returns the times of the responses, how many were no success, and the time of it all."""
    selector = selectors.DefaultSelector()
    requests = numbered(process, *message)
    start, times, failed = time.perf_counter(), [], 0
    end = start + seconds
    for _ in range(connections):
        Connection(port, message[-1] != "close", selector, requests)
    while not stopped and time.perf_counter() < end:
        for key, _ in selector.select(0.1):
            answer = key.data.receive()
            if answer:
                times.append(answer[0])
                failed += not answer[1]
    return times, failed, time.perf_counter() - start


def main():
    port, connections = int(sys.argv[1]), int(sys.argv[2])
    seconds, message = float(sys.argv[3]), sys.argv[4:]
    signal.signal(signal.SIGINT, stop)
    processes = max(1, min(connections, os.cpu_count() // 2))
    with concurrent.futures.ProcessPoolExecutor(processes) as pool:
        shares = [(connections + it) // processes for it in range(processes)]
        runs = [pool.submit(drive, it, port, share, seconds, message) for it, share in enumerate(shares)]
        ends = [run.result() for run in runs]
    times = sorted(it for times, _, _ in ends for it in times) or [0]
    failed = sum(failed for _, failed, _ in ends)
    micros = max(taken for _, _, taken in ends) * 1e6
    median, late = times[len(times) // 2], times[len(times) * 99 // 100]
    print(f"measured {len(times)} {micros:.0f} {failed} {median * 1e6:.0f} {late * 1e6:.0f}")


if __name__ == "__main__":
    main()

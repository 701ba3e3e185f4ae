"""Gives each connection of a loopback port to a process of its own, as its standard input and output.

    python3 tests/listen.py STATUSES COMMAND..

The first line of the standard output is the port. The exit status of each process is added to the file STATUSES, a line
each. It ends when its standard input does.
"""

import socket
import subprocess
import sys
import threading


def serve(listener, statuses, command):
    while True:
        connection, _ = listener.accept()
        with connection:
            status = subprocess.call(command, stdin=connection, stdout=connection)
        with open(statuses, "a") as file:
            print(status, file=file)


def main():
    statuses, *command = sys.argv[1:]
    listener = socket.create_server(("127.0.0.1", 0))
    print(listener.getsockname()[1], flush=True)
    threading.Thread(target=serve, args=(listener, statuses, command), daemon=True).start()
    sys.stdin.read()


main()

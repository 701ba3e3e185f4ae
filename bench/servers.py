"""The servers that bench/serve and bench/beside measure: `hkms serve`, and nginx with a static page, each on a free port of 127.0.0.1."""

import http.client
import os
import socket
import subprocess
import sys
import time

# How long a server may take to start, and to answer a single request, in seconds.
PATIENCE = 60


def free_port():
    with socket.socket() as listener:
        listener.bind(("127.0.0.1", 0))
        return listener.getsockname()[1]


def children_of(pid):
    with open(f"/proc/{pid}/task/{pid}/children", encoding="utf-8") as children:
        return [int(it) for it in children.read().split()]


def processor_seconds(pid):
    """The processor time that a process has used, in all its threads."""
    with open(f"/proc/{pid}/stat", encoding="utf-8") as stat:
        fields = stat.read().rsplit(")", 1)[1].split()
    return (int(fields[11]) + int(fields[12])) / os.sysconf("SC_CLK_TCK")


def give_up(why):
    print(f"bench/{os.path.basename(sys.argv[0])}: {why}", file=sys.stderr)
    sys.exit(70)


class Server:
    """A server that runs until `end`, or to the end of a `with`."""

    def __init__(self, command, folder):
        self.messages, self.asking = os.path.join(folder, "messages"), None
        with open(self.messages, "wb") as messages:
            self.process = subprocess.Popen(command, cwd=folder, stdin=subprocess.DEVNULL, stdout=messages, stderr=messages)
        end = time.monotonic() + PATIENCE
        while not self.is_listening():
            if self.process.poll() is not None or time.monotonic() > end:
                self.end()
                give_up(f"a server does not start: {self.said()}")
            time.sleep(0.02)

    def said(self):
        with open(self.messages, encoding="utf-8", errors="replace") as messages:
            return messages.read()

    def seconds(self):
        """The processor time that the server has used."""
        pid = self.process.pid
        return sum(processor_seconds(it) for it in [pid, *children_of(pid)])

    def ask(self, method, target, body="", keeps=True):
        """The status and the body of a response, on the connection that is kept for this or on one of its own."""
        connection = self.asking if keeps else None
        if not connection:
            connection = http.client.HTTPConnection("127.0.0.1", self.port, timeout=PATIENCE)
        connection.request(method, target, body, {} if keeps else {"Connection": "close"})
        response = connection.getresponse()
        answer = response.status, response.read().decode()
        if keeps:
            self.asking = connection
        else:
            connection.close()
        return answer

    def hang_up(self):
        """Closes the connection that is kept."""
        if self.asking:
            self.asking.close()
            self.asking = None

    def end(self):
        self.hang_up()
        self.process.terminate()
        self.process.wait()

    def __enter__(self):
        return self

    def __exit__(self, *_):
        self.end()


class Hkms(Server):
    """`hkms serve` over the logs of a folder. `capacity` is the number of connections that it serves at a time."""

    def __init__(self, program, folder, most):
        self.port = free_port()
        command, self.capacity = [program, "serve", "--port", str(self.port)], 16
        usage = subprocess.run([program, "serve", "--help"], stdout=subprocess.PIPE, text=True, check=True).stdout
        if "--connections" in usage:
            command, self.capacity = [*command, "--connections", str(most)], most
        super().__init__(command, folder)

    def is_listening(self):
        return "listening" in self.said()


NGINX = """{user}daemon off;
pid {folder}/nginx.pid;
worker_processes auto;
events {{ worker_connections 1024; }}
http {{
    access_log off;
    default_type application/json;
    keepalive_requests 1000000000;
    open_file_cache max=100;
    {temporary}
    server {{ listen 127.0.0.1:{port}; root {folder}; }}
}}
"""


class Nginx(Server):
    """nginx with pages of any size. It keeps connections for any number of requests, writes no log, and has as many workers as
    there are processors."""

    def __init__(self, folder):
        self.folder, self.port, self.capacity = folder, free_port(), 1024
        kinds = ("client_body", "proxy", "fastcgi", "uwsgi", "scgi")
        temporary = " ".join(f"{kind}_temp_path {folder}/{kind};" for kind in kinds)
        user = "user root;\n" if os.geteuid() == 0 else ""
        settings = os.path.join(folder, "nginx.conf")
        with open(settings, "w", encoding="utf-8") as file:
            file.write(NGINX.format(user=user, folder=folder, temporary=temporary, port=self.port))
        super().__init__(["nginx", "-c", settings, "-e", os.path.join(folder, "errors")], folder)

    def is_listening(self):
        # nginx writes this file once its port is open.
        return os.path.exists(os.path.join(self.folder, "nginx.pid"))

    def page(self, size):
        """The path of a page of this many bytes."""
        with open(os.path.join(self.folder, f"page-{size}"), "w", encoding="utf-8") as file:
            file.write("x" * size)
        return f"/page-{size}"


def start_nginx(folder):
    os.mkdir(folder)
    return Nginx(folder)

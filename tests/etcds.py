"""An etcd of three nodes for scripts, and a server over its log."""
import http.client
import itertools
import json
import os
import socket
import subprocess
import time

from venue import HOST, Server, free_port

NODES = 3
SECONDS = 60


class Etcd:
    """An etcd of three nodes on loopback, each with its data in a folder.

    Clients come to the address `clients_at`, if it is not 127.0.0.1: 0.0.0.0 for each address of the machine."""

    def __init__(self, folder, clients_at=HOST):
        self.folder, self.clients_at = folder, clients_at
        self.clients = [free_port(socket.SOCK_STREAM) for _ in range(NODES)]
        self.peers = [free_port(socket.SOCK_STREAM) for _ in range(NODES)]
        self.processes = [None] * NODES
        # (what its data may take, in bytes)
        self.quota = None

    scheme = "http"

    def seals(self):
        """The words of a node by which it speaks TLS."""
        return []

    def connect(self, node):
        return http.client.HTTPConnection(HOST, self.clients[node], timeout=2)

    def start(self, node):
        client, peer = (f"{self.scheme}://{HOST}:{ports[node]}" for ports in (self.clients, self.peers))
        cluster = ",".join(f"n{at}={self.scheme}://{HOST}:{port}" for at, port in enumerate(self.peers))
        with open(os.path.join(self.folder, f"log{node}"), "ab") as log:
            self.processes[node] = subprocess.Popen(
                ["etcd", "--name", f"n{node}", "--data-dir", os.path.join(self.folder, f"data{node}"),
                 "--listen-client-urls", f"{self.scheme}://{self.clients_at}:{self.clients[node]}",
                 "--advertise-client-urls", client, "--listen-peer-urls", peer,
                 "--initial-advertise-peer-urls", peer, "--initial-cluster", cluster, *self.seals(),
                 *(["--quota-backend-bytes", str(self.quota)] if self.quota else [])],
                stdout=log, stderr=log)

    def kill(self, node):
        self.processes[node].kill()
        self.processes[node].wait()

    def ask(self, node, method, path, body=None):
        """What a node answers; nothing where it does not."""
        try:
            line = self.connect(node)
            line.request(method, path, body)
            return line.getresponse().read()
        except (OSError, http.client.HTTPException):
            return b""

    def is_healthy(self, node):
        return self.ask(node, "GET", "/health") == b'{"health":"true"}'

    def leads(self, node):
        """Whether a node says that it leads."""
        status = json.loads(self.ask(node, "POST", "/v3/maintenance/status", "{}") or "{}")
        return "leader" in status and status["leader"] == status["header"]["member_id"]

    def leaders(self):
        """The nodes that say that they lead: one, or for a moment none, or two."""
        return [node for node in range(NODES) if self.leads(node)]

    def await_health(self):
        self.await_nodes(self.is_healthy)

    def await_nodes(self, holds):
        limit = time.monotonic() + SECONDS
        while not all(holds(node) for node in range(NODES)):
            assert time.monotonic() < limit, f"etcd is not healthy in {SECONDS} seconds"
            time.sleep(0.2)

    def start_all(self, holds=None):
        """Starts all nodes, and waits until this holds of each: that it is healthy, unless it is said."""
        for node in range(NODES):
            self.start(node)
        self.await_nodes(holds or self.is_healthy)

    def make_room(self):
        """Starts all nodes again, with as much room as an etcd has by itself, and has it take what it refused."""
        for node in range(NODES):
            self.kill(node)
        self.quota = None
        self.start_all(lambda node: self.ask(node, "GET", "/version"))
        for alarm in json.loads(self.ask(0, "POST", "/v3/maintenance/alarm", '{"action":"GET"}')).get("alarms", []):
            self.ask(0, "POST", "/v3/maintenance/alarm", json.dumps({"action": "DEACTIVATE", **alarm}))
        self.await_health()

    def stop(self):
        for node, process in enumerate(self.processes):
            if process is not None and process.poll() is None:
                self.kill(node)

    def words(self, host=HOST):
        """Its addresses, for one who comes to them at `host`."""
        return ",".join(f"{host}:{port}" for port in self.clients)


class LoggedServer(Server):
    """A server over the log of an etcd: each that starts is a writer of its own, and has a history of its own.

    Several servers over one etcd share `writers`, from which each start takes the next number. `within` are the words
    in front of the program, if it runs in a namespace of its own, from which the etcd is at `nodes`."""

    def __init__(self, program, folder, etcd, members, writers=None, within=(), nodes=None, **more):
        super().__init__(program, folder, None, members, **more)
        self.folder, self.writers = folder, writers or itertools.count(1)
        self.begins = [*within, *self.words, "--log", nodes or etcd.words()]

    def start(self, more=()):
        self.writer = next(self.writers)
        self.history = os.path.join(self.folder, f"history{self.writer}")
        self.words = [*self.begins, "--writer", str(self.writer), "--history", self.history, *more]
        self.notices.clear()
        super().start()

    def says(self, words):
        """Whether it has written this since it was started last."""
        return any(words in it for it in self.notices)

"""An etcd whose nodes speak TLS alone, to each other and to clients; the ways to it (stunnel); and who listens on a wire."""
import http.client
import os
import socket
import ssl
import subprocess
import threading
import time

from etcds import NODES, Etcd
from venue import HOST, free_port

HERE = os.path.dirname(os.path.abspath(__file__))
CERTIFICATES = os.path.join(HERE, "..", "examples", "cluster", "certificates")
# What requests and answers without TLS have.
PLAIN = b"POST /v3", b"HTTP/1.1"
ETH_P_ALL = 3

TUNNEL = """foreground = yes
pid =
client = yes
CAfile = {keys}/ca.pem
cert = {keys}/server.pem
key = {keys}/server.key
verifyChain = yes
"""
NODE = """[node{node}]
accept = {host}:{port}
connect = {at}:{client}
checkIP = {at}
"""


class SealedEtcd(Etcd):
    """An etcd of three nodes that speak TLS, and take whoever has a certificate. They are at 127.0.0.1 and at these
    addresses."""

    scheme = "https"

    def __init__(self, folder, addresses):
        super().__init__(folder, "0.0.0.0")
        self.keys, self.tunnels = os.path.join(folder, "keys"), []
        subprocess.run([CERTIFICATES, self.keys, "node=" + ",".join((HOST, *addresses)), f"server={HOST}"], check=True)
        self.context = ssl.create_default_context(cafile=self.key("ca.pem"))
        self.context.load_cert_chain(self.key("server.pem"), self.key("server.key"))

    def key(self, name):
        return os.path.join(self.keys, name)

    def seals(self):
        words = ["--client-cert-auth", "--peer-client-cert-auth"]
        for kind in ("", "peer-"):
            words += [f"--{kind}cert-file", self.key("node.pem"), f"--{kind}key-file", self.key("node.key"),
                      f"--{kind}trusted-ca-file", self.key("ca.pem")]
        return words

    def connect(self, node):
        return http.client.HTTPSConnection(HOST, self.clients[node], timeout=2, context=self.context)

    def tunnel(self, at=HOST, within=()):
        """A way to the nodes, which are at this address: where it begins, without TLS. It runs `within` these words."""
        ports = [free_port(socket.SOCK_STREAM) for _ in range(NODES)]
        path = os.path.join(self.folder, f"tunnel{len(self.tunnels)}")
        with open(path, "w", encoding="ascii") as file:
            file.write(TUNNEL.format(keys=self.keys))
            for node, port in enumerate(ports):
                file.write(NODE.format(node=node, host=HOST, port=port, at=at, client=self.clients[node]))
        process = subprocess.Popen([*within, "stunnel", path], stderr=subprocess.PIPE)
        self.tunnels.append(process)
        while b"Configuration successful" not in (line := process.stderr.readline()):
            assert line, "stunnel has ended"
        threading.Thread(target=process.stderr.read, daemon=True).start()
        return ",".join(f"{HOST}:{port}" for port in ports)

    def stop(self):
        for process in self.tunnels:
            process.kill()
            process.wait()
        super().stop()


class Wiretap(threading.Thread):
    """Who listens on a wire: how many bytes passed, and whether any of them were plain."""

    def __init__(self, interface):
        super().__init__(daemon=True)
        self.bytes, self.plain = 0, False
        self.wire = socket.socket(socket.AF_PACKET, socket.SOCK_RAW, socket.htons(ETH_P_ALL))
        self.wire.bind((interface, 0))

    def run(self):
        while True:
            try:
                packet = self.wire.recv(65536)
            except OSError:
                # (the wire is cut)
                time.sleep(0.01)
                continue
            self.bytes += len(packet)
            self.plain = self.plain or any(word in packet for word in PLAIN)

    def expect_sealed(self):
        assert self.bytes > 0, "nothing passed on the wire"
        assert not self.plain, "a request or an answer passed without TLS"

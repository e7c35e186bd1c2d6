"""Sockets of loopback before one zone_serve in its mode `lines`, which stays: so an update that it made is there for whoever asks next."""
import socket
import subprocess
import threading

import servers


class Relay:
    """A port of loopback, over UDP and TCP, and the zone_serve that answers what comes there."""

    def __init__(self, words, log):
        self.process = subprocess.Popen([*words, "lines"], stdin=subprocess.PIPE, stdout=subprocess.PIPE, stderr=log, text=True, bufsize=1)
        self.lock = threading.Lock()
        self.port = servers.free_port()
        self.datagrams = socket.socket(socket.AF_INET, socket.SOCK_DGRAM)
        self.datagrams.bind(("127.0.0.1", self.port))
        self.listener = socket.create_server(("127.0.0.1", self.port))
        for serve in (self.serve_datagrams, self.serve_connections):
            threading.Thread(target=serve, daemon=True).start()

    def answers(self, transport, peer, message):
        """The replies of zone_serve to a message."""
        with self.lock:
            self.process.stdin.write(f"{transport} {peer} {message.hex()}\n")
            found = []
            while line := self.process.stdout.readline().strip():
                if line in servers.WORDS:
                    return []
                found.append(bytes.fromhex(line))
            return found

    def serve_datagrams(self):
        while True:
            message, (peer, port) = self.datagrams.recvfrom(65535)
            for it in self.answers("udp", peer, message):
                self.datagrams.sendto(it, (peer, port))

    def serve_connections(self):
        while True:
            stream, (peer, _) = self.listener.accept()
            threading.Thread(target=self.serve_connection, args=(stream, peer), daemon=True).start()

    def serve_connection(self, stream, peer):
        with stream:
            try:
                while True:
                    message = servers.read_exactly(stream, int.from_bytes(servers.read_exactly(stream, 2), "big"))
                    for it in self.answers("tcp", peer, message):
                        stream.sendall(len(it).to_bytes(2, "big") + it)
            except OSError:
                pass

    def stop(self):
        self.process.stdin.close()
        return self.process.wait()

"""A client of gdb's remote serial protocol, for the tests and the bench."""
import os
import socket
import subprocess
import sys

GDB = os.path.join(os.path.dirname(os.path.dirname(os.path.realpath(__file__))), "gdb")


class Client:
    """A server of its own, and what it said besides its replies in `said`."""

    def __init__(self, *words):
        self.server = subprocess.Popen([sys.executable, GDB, *words], stdout=subprocess.PIPE, text=True)
        line = self.server.stdout.readline()
        if not line:
            raise SystemExit(f"sancus-gdb {' '.join(words)}: no port")
        self.socket = socket.create_connection(("127.0.0.1", int(line.rsplit(":", 1)[1])))
        self.socket.setsockopt(socket.IPPROTO_TCP, socket.TCP_NODELAY, 1)
        self.buffer, self.said = b"", []

    def send(self, text):
        body = text.encode("latin-1")
        self.socket.sendall(b"$" + body + b"#%02x" % (sum(body) & 255))

    def ask(self, text):
        self.send(text)
        return self.reply()

    def reply(self):
        while True:
            body = self.packet()
            if body[:1] != "O" or body == "OK":
                return body
            self.said.append(bytes.fromhex(body[1:]).decode().strip())

    def packet(self):
        while b"#" not in self.buffer[:-2]:
            more = self.socket.recv(65536)
            if not more:
                raise SystemExit("the server left")
            self.buffer += more
        body, _, rest = self.buffer.partition(b"$")[2].partition(b"#")
        self.buffer = rest[2:]
        return body.decode("latin-1")

    def command(self, text):
        """What `monitor` of gdb prints."""
        before = len(self.said)
        self.ask("qRcmd," + text.encode().hex())
        told, self.said = self.said[before:], self.said[:before]
        return "\n".join(told)

    def registers(self):
        body = self.ask("g")
        return [int.from_bytes(bytes.fromhex(body[k:k + 8]), "little") for k in range(0, 128, 8)]

    def memory(self, addr, size):
        body = self.ask(f"m{addr:x},{size:x}")
        return None if body == "E01" else bytes.fromhex(body)

    def end(self):
        self.socket.close()
        self.server.stdout.close()
        return self.server.wait(10)

"""The side of a debugger on a line to a server: it sends a packet and waits for the reply, with no acks."""

import os
import subprocess
import time

from .gdb import packet


class Remote:
    """A server that was started with these words. `began` says when."""

    def __init__(self, words):
        self.began = time.monotonic()
        self.process = subprocess.Popen(words, stdin=subprocess.PIPE, stdout=subprocess.PIPE)
        self.held = b""
        self.ask(b"QStartNoAckMode")
        self.connected = time.monotonic() - self.began

    def text(self):
        """The text of the next packet that comes."""
        while (end := self.held.find(b"#")) < 0 or len(self.held) < end + 3:
            piece = os.read(self.process.stdout.fileno(), 65536)
            if not piece:
                raise EOFError(self.held)
            self.held += piece
        text = self.held[self.held.index(b"$") + 1:end]
        self.held = self.held[end + 3:]
        return text

    def ask(self, text):
        """The reply to a packet; what is shown to the user is passed over."""
        self.process.stdin.write(packet(text))
        self.process.stdin.flush()
        while (reply := self.text()).startswith(b"O") and reply != b"OK":
            pass
        return reply

    def command(self, text):
        """What is shown for a command behind `monitor`."""
        reply = self.ask(b"qRcmd," + text.encode().hex().encode())
        return "" if reply == b"OK" else bytes.fromhex(reply.decode()).decode()

    def took(self, *texts):
        """How many seconds on the clock these packets take, one behind the reply to the other."""
        began = time.monotonic()
        for text in texts:
            self.ask(text)
        return time.monotonic() - began

    def interrupted(self, text, later):
        """How many seconds on the clock Ctrl-C takes to stop the move that a packet asks for, sent so many seconds after it."""
        self.process.stdin.write(packet(text))
        self.process.stdin.flush()
        time.sleep(later)
        began = time.monotonic()
        self.process.stdin.write(b"\x03")
        self.process.stdin.flush()
        reply = self.text()
        assert reply.startswith(b"T02"), reply
        return time.monotonic() - began

    def close(self):
        self.process.stdin.write(packet(b"k"))
        self.process.stdin.close()
        self.process.stdout.close()
        return self.process.wait()

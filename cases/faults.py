"""Runs the program with an allocation that is refused, or a read or a write that fails, by a library that is loaded before the C library."""
import os
import shutil
import subprocess
import tempfile
import time

import peers
import serving

HERE = os.path.dirname(os.path.abspath(__file__))
# The program itself: what is loaded before the C library would also be loaded by a script that starts it.
PROGRAM = os.environ.get("RITAS", os.path.join(serving.TOP, "crates", "ritas", "out", "ritas"))


def compiler() -> str:
    """A C compiler, or nothing where there is none."""
    return shutil.which(os.environ.get("CC", "cc")) or ""


class Faults:
    """The library, and runs with it."""

    def __init__(self, folder: str):
        self.folder, self.library = folder, os.path.join(folder, "faults.so")
        words = compiler(), "-shared", "-fPIC", "-O1", os.path.join(HERE, "faults.c"), "-o", self.library, "-ldl"
        subprocess.run(words, check=True, stdout=subprocess.DEVNULL)

    def environment(self, **settings) -> dict:
        return {"LD_PRELOAD": self.library, **{name: str(value) for name, value in settings.items()}}

    def run(self, text: bytes, *words: str, **settings):
        """The status and what is written. The input is a file, so that each run reads it by the same calls."""
        with tempfile.TemporaryFile() as given:
            given.write(text)
            given.seek(0)
            done = subprocess.run([PROGRAM, *words], stdin=given, capture_output=True, env=self.environment(**settings), timeout=serving.PATIENCE)
        return done.returncode, done.stdout, done.stderr

    def counts(self, call, *words, **settings) -> list:
        """How many allocations, reads and writes a run has."""
        path = os.path.join(self.folder, "counts")
        call(*words, COUNTS=path, **settings)
        with open(path) as file:
            return [int(word) for word in file.read().split()]


class Lone:
    """A node that is served alone, n = 1, and one client that hands in a request twice and reads until the node ends."""

    MESSAGE = (7).to_bytes(4, "big") + (1).to_bytes(4, "big") + b"hi"

    def __init__(self, faults: Faults):
        self.faults, self.key = faults, bytes(range(32)).hex()

    def config(self, peer: int, client: int) -> bytes:
        head = "ritas 1", "session 0", "n 1", "f 0", "root 6", "vect echo", "me 0", f"row {self.key}", f"coin {self.key}"
        return serving.config(*head, f"peer {serving.address(peer)}", f"client {serving.address(client)}", "limit 2", "until 0")

    def run(self, **settings):
        """The status, the record, what goes to standard error, and what the client was replied."""
        peer, port = serving.free_ports(2)
        with tempfile.TemporaryFile() as given, tempfile.TemporaryFile() as record, tempfile.TemporaryFile() as said:
            given.write(self.config(peer, port))
            given.seek(0)
            environment = self.faults.environment(**settings)
            process = subprocess.Popen([PROGRAM, "node"], stdin=given, stdout=record, stderr=said, env=environment, start_new_session=True)
            try:
                replies = self.ask(process, port)
            finally:
                if process.poll() is None:
                    process.kill()
                process.wait()
            for file in (record, said):
                file.seek(0)
            return process.returncode, record.read(), said.read(), replies

    def ask(self, process: subprocess.Popen, port: int) -> list:
        """Hands the request in until the node ends, anew where the node closes the connection."""
        until, replies = time.monotonic() + serving.PATIENCE, []
        while process.poll() is None and time.monotonic() < until:
            try:
                replies = self.ask_once(port)
                process.wait(0.2)
            except (OSError, subprocess.TimeoutExpired):
                time.sleep(0.001)
        return replies

    def ask_once(self, port: int) -> list:
        link = peers.Pieces(port)
        with link.socket:
            link.send(self.MESSAGE, self.MESSAGE)
            while link.read():
                pass
        return link.take()

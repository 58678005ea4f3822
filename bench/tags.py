"""What the benchmarks have in common: the program, its processor time and memory, and OpenSSL's tags with the pads of each key kept."""
import ctypes
import hmac
import os
import resource
import statistics
import struct
import subprocess
import sys
import tempfile

HERE = os.path.dirname(os.path.abspath(__file__))
sys.path.append(os.path.join(HERE, "..", "examples"))
from serving import NEWEST_VERSION  # noqa: E402

N, SESSION = 31, 0
VERSIONS = range(1, NEWEST_VERSION + 1)
MASTER = bytes(32)
RUNS = 5
# Times that are compared are taken by turns, so often.
TURNS = 9


def tag(key: bytes, text: bytes) -> bytes:
    return hmac.digest(key, text, "sha256")


def pair_key(i: int, j: int) -> bytes:
    return tag(MASTER, b"\x4b" + struct.pack(">Q", SESSION) + bytes([min(i, j), max(i, j)]))


KEYS = [pair_key(0, j) for j in range(N)]


C_SOURCE = r"""
#include <openssl/sha.h>
#include <stdint.h>
#include <time.h>

struct pads { SHA256_CTX inner, outer; };

static void hash_pad(SHA256_CTX *state, const uint8_t *key, uint8_t with) {
    uint8_t pad[64];
    for (int k = 0; k < 64; k++) pad[k] = (k < 32 ? key[k] : 0) ^ with;
    SHA256_Init(state);
    SHA256_Update(state, pad, 64);
}

static void tag(const struct pads *pads, const uint8_t *text, size_t count, uint8_t *out) {
    SHA256_CTX state = pads->inner;
    SHA256_Update(&state, text, count);
    SHA256_Final(out, &state);
    state = pads->outer;
    SHA256_Update(&state, out, 32);
    SHA256_Final(out, &state);
}

/* texts: for each a key's number (1 byte), a length (2 bytes, big-endian), and so many bytes; last: the last one's tag */
double tag_all(const uint8_t *keys, const uint8_t *texts, size_t size, uint8_t *last) {
    struct timespec from, to;
    struct pads kept[31];
    for (int j = 0; j < 31; j++) {
        hash_pad(&kept[j].inner, keys + 32 * j, 0x36);
        hash_pad(&kept[j].outer, keys + 32 * j, 0x5c);
    }
    clock_gettime(CLOCK_PROCESS_CPUTIME_ID, &from);
    for (size_t at = 0; at < size;) {
        size_t count = ((size_t)texts[at + 1] << 8) | texts[at + 2];
        tag(&kept[texts[at]], texts + at + 3, count, last);
        at += 3 + count;
    }
    clock_gettime(CLOCK_PROCESS_CPUTIME_ID, &to);
    return (double)(to.tv_sec - from.tv_sec) + 1e-9 * (double)(to.tv_nsec - from.tv_nsec);
}
"""


def openssl(folder: str, tagged):
    """What makes OpenSSL's tags of these texts once, and says the processor time that it took."""
    source, library = os.path.join(folder, "tags.c"), os.path.join(folder, "tags.so")
    with open(source, "w") as file:
        file.write(C_SOURCE)
    done = subprocess.run(["gcc", "-O2", "-w", "-shared", "-fPIC", source, "-o", library, "-lcrypto"])
    if done.returncode != 0:
        sys.exit("bench: OpenSSL's headers are wanted (package libssl-dev)")
    call = ctypes.CDLL(library).tag_all
    call.restype = ctypes.c_double
    texts = b"".join(bytes([peer]) + struct.pack(">H", len(head)) + head for peer, head in tagged)
    last = ctypes.create_string_buffer(32)
    keys, size = b"".join(KEYS), ctypes.c_size_t(len(texts))
    call(keys, texts, size, last)
    peer, text = tagged[-1]
    if last.raw != tag(KEYS[peer], text):
        sys.exit("bench: OpenSSL's tag isn't that of Python's hmac")
    return lambda: call(keys, texts, size, last)


def compared(ours, theirs):
    """The least time of each of two, taken by turns, and the median of the ratios of each turn: where the machine is now fast and now slow, both of a turn
    mostly meet the same."""
    turns = [(ours(), theirs()) for _ in range(TURNS)]
    our_times, their_times = zip(*turns)
    return min(our_times), min(their_times), statistics.median(a / b for a, b in turns)


def children_time() -> float:
    used = resource.getrusage(resource.RUSAGE_CHILDREN)
    return used.ru_utime + used.ru_stime


def program() -> str:
    """The program of the environment's RITAS, or else the one that `./ritas` builds."""
    return os.environ.get("RITAS") or os.path.join(HERE, "..", "crates", "ritas", "out", "ritas")


def build() -> None:
    """Builds the program where it isn't built, which it tells as it goes: with no words it writes how it is used."""
    command = os.environ.get("RITAS") or os.path.join(HERE, "..", "ritas")
    built = subprocess.run([command], stdin=subprocess.DEVNULL, stdout=subprocess.DEVNULL)
    if built.returncode != 2:
        sys.exit("bench: the program isn't built")


MEMORY_SOURCE = r"""
#include <stdio.h>
#include <sys/resource.h>
#include <sys/wait.h>
#include <unistd.h>

int main(int count, char **words) {
    struct rusage used;
    if (count < 2 || !freopen("/dev/null", "w", stdout)) return 1;
    if (fork() == 0) { execv(words[1], words + 1); _exit(1); }
    wait(NULL);
    getrusage(RUSAGE_CHILDREN, &used);
    fprintf(stderr, "%ld", used.ru_maxrss);
    return 0;
}
"""


def most_memory(file: str, *words: str) -> int:
    """The most KiB that the program held, with these words and this file as its input. Python would count its own memory, so a program in C starts it."""
    with tempfile.TemporaryDirectory() as folder:
        source, starter = os.path.join(folder, "memory.c"), os.path.join(folder, "memory")
        with open(source, "w") as text:
            text.write(MEMORY_SOURCE)
        subprocess.run(["gcc", "-O2", "-w", source, "-o", starter], check=True)
        with open(file, "rb") as stream:
            done = subprocess.run([starter, program(), *words], stdin=stream, stderr=subprocess.PIPE, check=True)
    return int(done.stderr)


def allocations(file: str, *words: str) -> int:
    """How often the program takes memory, with these words and this file as its input: its calls of malloc(3) and its like, by `bench/calls.c`."""
    with tempfile.TemporaryDirectory() as folder:
        counter, counts = os.path.join(folder, "calls.so"), os.path.join(folder, "counts")
        subprocess.run(["gcc", "-O2", "-D_GNU_SOURCE", "-shared", "-fPIC", os.path.join(HERE, "calls.c"), "-ldl", "-o", counter], check=True)
        with open(file, "rb") as stream:
            subprocess.run([program(), *words], stdin=stream, stdout=subprocess.DEVNULL, env={**os.environ, "LD_PRELOAD": counter, "CALLS": counts})
        with open(counts, "rb") as text:
            return int.from_bytes(text.read()[16:24], sys.byteorder)

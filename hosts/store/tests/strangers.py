"""Strangers at both ports of three stores that share a key, while clients count: bytes turned on the way between peers, recorded openings
that are played again, wrong keys, noise, connections that drip, 5,000 connections to the clients' port, floods; in the end a folder that is put
back from an older copy. Nothing that clients are told may be wrong: strangers may cost them waits, which are printed.

    python3 strangers.py STORE [SECONDS]

Needs redis-py. Status 1 where something was told wrong.
"""

import contextlib
import os
import random
import resource
import shutil
import socket
import struct
import subprocess
import sys
import tempfile
import threading
import time

import redis

from ports import Ports

PATIENCE = 300
FAULTS = []


def fault(what):
    FAULTS.append(what)
    print("fault: " + what, flush=True)


class Link:
    """The way from one replica to another one, on which bytes may be turned and openings are recorded."""

    turned, recorded = 0, []
    share = 0.0

    def __init__(self, port):
        self.to = port
        self.listener = socket.create_server(("127.0.0.1", 0))
        self.port = self.listener.getsockname()[1]
        threading.Thread(target=self.take, daemon=True).start()

    def take(self):
        while True:
            near, _ = self.listener.accept()
            try:
                far = socket.create_connection(("127.0.0.1", self.to), timeout=5)
            except OSError:
                near.close()
                continue
            far.settimeout(None)
            threading.Thread(target=self.carry, args=(near, far, True), daemon=True).start()
            threading.Thread(target=self.carry, args=(far, near, False), daemon=True).start()

    def carry(self, near, far, is_opening):
        opening = b""
        try:
            while data := near.recv(1 << 16):
                if is_opening and len(opening) < 4096:
                    opening += data
                if Link.share and random.random() < Link.share:
                    data = bytearray(data)
                    data[random.randrange(len(data))] ^= 1 << random.randrange(8)
                    Link.turned += 1
                far.sendall(data)
        except OSError:
            pass
        if opening:
            Link.recorded.append(opening)
        for it in (near, far):
            with contextlib.suppress(OSError):
                it.shutdown(socket.SHUT_RDWR)


class Cluster:
    def __init__(self, store):
        self.store, self.folder = store, tempfile.mkdtemp(prefix="store-strangers-")
        self.ports = Ports()
        self.peers, self.clients = self.ports[:3], self.ports[3:6]
        self.links = [[Link(self.peers[to]) if to != at else None for to in range(3)] for at in range(3)]
        self.running = {}
        with open(f"{self.folder}/key", "w", encoding="utf-8", opener=lambda path, flags: os.open(path, flags, 0o600)) as file:
            file.write(random.randbytes(24).hex())

    def start(self, at):
        link = lambda to: self.links[at][to].port if to != at else self.peers[at]
        words = [self.store, "--replica", str(at), "--peers", ",".join(f"127.0.0.1:{link(to)}" for to in range(3))]
        words += ["--listen", f"127.0.0.1:{self.clients[at]}", "--dir", f"{self.folder}/{at}"]
        words += ["--peer-key", f"{self.folder}/key", "--patience", "30"]
        words += [] if os.path.exists(f"{self.folder}/{at}/generations/1") or os.path.exists(f"{self.folder}/begun-{at}") else ["--new"]
        with open(f"{self.folder}/told-{at}", "ab") as told:
            self.running[at] = subprocess.Popen(words, stdin=subprocess.DEVNULL, stderr=told)

    def told(self, at):
        with open(f"{self.folder}/told-{at}", encoding="utf-8", errors="replace") as file:
            return file.read()

    def await_all(self):
        start = time.monotonic()
        for at in range(3):
            while True:
                try:
                    if redis.Redis(port=self.clients[at], socket_timeout=60).set(f"started-{at}", "1"):
                        break
                except redis.RedisError:
                    pass
                if time.monotonic() - start > PATIENCE:
                    raise SystemExit("\n".join(map(self.told, range(3))))
                time.sleep(0.1)
            with open(f"{self.folder}/begun-{at}", "w", encoding="utf-8"):
                pass

    def end(self):
        for it in self.running.values():
            it.kill()
            it.wait()
        shutil.rmtree(self.folder, ignore_errors=True)


class Clients:
    """Some clients of each replica, that count and read what they wrote."""

    def __init__(self, cluster, count):
        self.cluster, self.is_over, self.mutex = cluster, False, threading.Lock()
        self.waits, self.told, self.open, self.refused = [], {}, {}, 0
        self.threads = [threading.Thread(target=self.work, args=(number,), daemon=True) for number in range(count)]
        for it in self.threads:
            it.start()

    def work(self, number):
        client = redis.Redis(port=self.cluster.clients[number % 3], socket_timeout=60)
        key, turn, own = f"count-{number % 2}", 0, f"own-{number}"
        while not self.is_over:
            turn += 1
            start = time.monotonic()
            try:
                if turn % 2:
                    value = client.incr(key)
                    with self.mutex:
                        told = self.told.setdefault(key, set())
                        if value in told:
                            fault(f"{key} was told {value} twice")
                        told.add(value)
                else:
                    client.set(own, turn)
                    if client.get(own) != str(turn).encode():
                        fault(f"{own} isn't what was written")
                with self.mutex:
                    self.waits.append(time.monotonic() - start)
            except redis.RedisError as error:
                with self.mutex:
                    self.refused += 1
                    if turn % 2 and "wasn't done" not in str(error):
                        self.open[key] = self.open.get(key, 0) + 1
                # (what may still be done may come behind what is written next)
                own = f"own-{number}-{turn}"
                time.sleep(0.02)

    def taken(self):
        """The waits since it was asked last."""
        with self.mutex:
            waits, refused = sorted(self.waits), self.refused
            self.waits, self.refused = [], 0
        return waits, refused

    def end(self):
        self.is_over = True
        for it in self.threads:
            it.join()


def show(what, waits, refused):
    at = lambda share: 1000 * waits[int((len(waits) - 1) * share)] if waits else 0.0
    print(f"{what}: {len(waits)} told, {refused} refused; waits of {at(0.5):.1f} ms (median), {at(0.99):.0f} ms (99 of 100), {at(1):.0f} ms (longest)", flush=True)


def closed(it):
    with contextlib.suppress(OSError):
        it.close()


def at_peers(cluster, until):
    """Noise, hellos with wrong proofs, openings played again, and connections that drip."""
    dripping, learned = [], 0
    while time.monotonic() < until:
        port = random.choice(cluster.peers)
        try:
            it = socket.create_connection(("127.0.0.1", port), timeout=2)
            kind = random.randrange(4)
            if kind == 0:
                it.sendall(random.randbytes(random.randrange(1, 3000)))
            elif kind == 1:
                hello = b"EPST\x05" + bytes([3, random.randrange(3), cluster.peers.index(port)]) + random.randbytes(16)
                it.sendall(hello)
                it.settimeout(0.5)
                answer = it.recv(4096)
                learned = max(learned, len(answer))
                # a message of kind 0, a length, and a tag by chance; then a frame whose stamp is near the end
                forged = b"EP\x03\x05" + bytes([1, 0]) + struct.pack(">HIQ", 1, 1, (1 << 48) - 5) + random.randbytes(40)
                it.sendall(struct.pack(">IB", 16, 0) + random.randbytes(32) + struct.pack(">IB", len(forged), 1) + forged + random.randbytes(16))
            elif kind == 2 and Link.recorded:
                it.sendall(random.choice(Link.recorded[-50:]))
            else:
                it.sendall(b"E")
                dripping.append(it)
                continue
            closed(it)
        except OSError:
            pass
        if len(dripping) > 100:
            closed(dripping.pop(0))
        for it in dripping[-20:]:
            with contextlib.suppress(OSError):
                it.send(b"P")
        time.sleep(0.005)
    for it in dripping:
        closed(it)
    print(f"a stranger at the peers' port was told at most {learned} bytes", flush=True)


# what who comes to the clients' port begins with: half a command, noise (None), reads, floods, silence
FIRST = (b"*3\r\n$3\r\nSET\r\n$1\r\nx\r\n$200000\r\n" + bytes(50_000), None, b"READONLY\r\n" + b"GET x\r\n" * 50, b"INFO\r\n" * 5, b"")


def at_clients(cluster, until):
    """5,000 connections, half commands, noise and floods, by waves."""
    waves = 0
    while time.monotonic() < until:
        waves += 1
        them = []
        for number in range(5000 // 3):
            if time.monotonic() > until:
                break
            first = FIRST[number % len(FIRST)]
            with contextlib.suppress(OSError):
                them.append(socket.create_connection(("127.0.0.1", cluster.clients[number % 2]), timeout=2))
                them[-1].setblocking(False)
                them[-1].send(random.randbytes(500) if first is None else first)
        time.sleep(0.5)
        for it in them:
            closed(it)
    print(f"{waves} waves of connections at two clients' ports", flush=True)


def whole_info(cluster, at):
    """What a store tells of itself and of its core, once the core is quick enough."""
    start = time.monotonic()
    while time.monotonic() - start < PATIENCE:
        with contextlib.suppress(redis.RedisError):
            told = redis.Redis(port=cluster.clients[at], socket_timeout=60).info()
            if "replica" in told:
                return told
        time.sleep(0.1)
    raise SystemExit(f"store {at} tells nothing of itself: {cluster.told(at)[-1500:]}")


def read(cluster, key):
    """A key's value, once it is told."""
    start = time.monotonic()
    while time.monotonic() - start < PATIENCE:
        with contextlib.suppress(redis.RedisError):
            return redis.Redis(port=cluster.clients[0], socket_timeout=60).get(key)
        time.sleep(0.1)
    raise SystemExit(f"nothing is told of {key}: {cluster.told(0)[-1500:]}")


def judge_older(cluster, last):
    """The folder of store 2 was put back from before generation `last`, in which it was: it ends, or comes in with a later one."""
    start, generation = time.monotonic(), 0
    while time.monotonic() - start < PATIENCE:
        status = cluster.running[2].poll()
        if status is not None:
            print(f"the older copy ends with status {status}: {cluster.told(2).splitlines()[-1]}", flush=True)
            if status != 4:
                fault("an older copy ends by another status than 4")
            return
        try:
            generation = redis.Redis(port=cluster.clients[2], socket_timeout=5).info().get("generation", 0)
        except redis.RedisError:
            generation = 0
        if generation > last:
            print(f"the older copy, which was in generation {last}, comes in with {generation}", flush=True)
            return
        time.sleep(0.5)
    fault(f"the older copy runs in generation {generation}; it was in {last}: {cluster.told(2)[-1500:]}")


def main():
    most = resource.getrlimit(resource.RLIMIT_NOFILE)[1]
    resource.setrlimit(resource.RLIMIT_NOFILE, (most if most < 16_384 else 16_384, most))
    seconds = float(sys.argv[2]) if len(sys.argv) > 2 else 20
    random.seed(1)
    cluster = Cluster(os.path.abspath(sys.argv[1]))
    try:
        for at in range(3):
            cluster.start(at)
        cluster.await_all()
        clients = Clients(cluster, 12)
        time.sleep(seconds / 2)
        show("without strangers", *clients.taken())
        # An older copy of a folder, for later.
        shutil.copytree(f"{cluster.folder}/2", f"{cluster.folder}/older", ignore=shutil.ignore_patterns("admin.sock"))
        until = time.monotonic() + seconds
        Link.share = 0.01
        strangers = [threading.Thread(target=it, args=(cluster, until)) for it in (at_peers, at_peers, at_clients)]
        for it in strangers:
            it.start()
        for it in strangers:
            it.join()
        Link.share = 0.0
        show("with strangers", *clients.taken())
        print(f"{Link.turned} times a byte was turned between peers", flush=True)
        time.sleep(seconds / 2)
        show("after them", *clients.taken())
        for at in range(3):
            if cluster.running[at].poll() is not None:
                fault(f"store {at} has ended: {cluster.told(at)[-500:]}")
        # The older copy speaks in no generation in which it has told more than it knows.
        last = whole_info(cluster, 2)["generation"]
        cluster.running[2].kill()
        cluster.running[2].wait()
        shutil.rmtree(f"{cluster.folder}/2")
        shutil.move(f"{cluster.folder}/older", f"{cluster.folder}/2")
        cluster.start(2)
        judge_older(cluster, last)
        clients.end()
        for key, told in clients.told.items():
            value = int(read(cluster, key))
            most = len(told) + clients.open.get(key, 0)
            print(f"{key} has {value}: {len(told)} told, {clients.open.get(key, 0)} that may be done", flush=True)
            if not max(told) <= value or not len(told) <= value <= most:
                fault(f"{key} has {value}, and {len(told)} to {most} were done")
    finally:
        cluster.end()
    print(f"{len(FAULTS)} faults")
    return 1 if FAULTS else 0


if __name__ == "__main__":
    sys.exit(main())

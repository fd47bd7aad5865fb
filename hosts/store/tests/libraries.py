"""Clients that others have written, at a cluster of three: redis-cli, redis-benchmark and redis-py (Debian: redis-tools, python3-redis), and
the examples. What isn't here is said and left out.

    python3 libraries.py STORE

by a Python that has redis-py. Status 1 where something is told wrong.
"""

import os
import shutil
import signal
import socket
import subprocess
import sys
import tempfile
import threading
import time

from ports import Ports

FOLDER = os.path.dirname(os.path.abspath(__file__))
sys.path.insert(0, f"{FOLDER}/../../../tools")

import needs

try:
    import redis
except ImportError:
    redis = None

EXAMPLES = os.path.join(os.path.dirname(FOLDER), "examples")
PATIENCE = 300


class Cluster:
    """Three stores in a folder of their own, until it is left."""

    def __init__(self, store):
        self.store, self.folder = store, tempfile.mkdtemp(prefix="store-libraries-")
        self.all_ports = Ports()
        self.peers, self.ports = self.all_ports[:3], self.all_ports[3:6]
        self.running = {}

    def start(self, replica):
        folder = f"{self.folder}/{replica}"
        peers = ",".join(f"127.0.0.1:{port}" for port in self.peers)
        words = [self.store, "--replica", str(replica), "--peers", peers, "--dir", folder, "--patience", "60"]
        words += ["--listen", f"127.0.0.1:{self.ports[replica]}"]
        words += [] if os.path.exists(f"{folder}/generations/1") else ["--new"]
        with open(f"{self.folder}/told-{replica}", "ab") as told:
            self.running[replica] = subprocess.Popen(words, stdin=subprocess.DEVNULL, stderr=told)

    def __enter__(self):
        for replica in range(3):
            self.start(replica)
        start = time.monotonic()
        for port in self.ports:
            while True:
                try:
                    with socket.create_connection(("127.0.0.1", port), timeout=PATIENCE) as it:
                        it.sendall(b"SET started 1\r\n")
                        if it.recv(100) == b"+OK\r\n":
                            break
                except OSError:
                    pass
                if time.monotonic() - start > PATIENCE:
                    raise SystemExit(self.told())
                time.sleep(0.1)
        return self

    def __exit__(self, *_):
        for it in self.running.values():
            it.send_signal(signal.SIGTERM)
        for it in self.running.values():
            it.wait()
        shutil.rmtree(self.folder, ignore_errors=True)

    def told(self):
        texts = []
        for replica in range(3):
            with open(f"{self.folder}/told-{replica}", encoding="utf-8", errors="replace") as told:
                texts.append(told.read())
        return "\n".join(texts)


FAULTS = []


def check(what, told, expected):
    if told != expected:
        FAULTS.append(what)
        print(f"{what}: {told!r}, and not {expected!r}")


def check_soon(what, ask, expected):
    """What a replica tells of itself, once it knows what others have done."""
    start = time.monotonic()
    while (told := ask()) != expected and time.monotonic() - start < PATIENCE:
        time.sleep(0.1)
    check(what, told, expected)


def by_redis_cli(cluster):
    """Replies as redis-cli prints them where its output is no terminal."""
    if not needs.has("redis-cli", "a store and redis-cli"):
        return

    def cli(replica, *words, lines=None):
        port = str(cluster.ports[replica])
        done = subprocess.run(["redis-cli", "-p", port, *words], input=lines, capture_output=True, text=True, check=False)
        return done.stdout.strip("\n")

    for replica, words, expected in [
        (0, ["ping"], "PONG"),
        (0, ["set", "x", "1"], "OK"),
        (1, ["get", "x"], "1"),
        (2, ["incr", "x"], "2"),
        (0, ["set", "x", "3", "nx"], ""),
        (0, ["-n", "0", "get", "x"], "2"),
        (0, ["-3", "get", "x"], "2"),
        (0, ["-3", "get", "none"], ""),
        (1, ["mset", "a", "1", "b", "2"], "OK"),
        (2, ["mget", "a", "b", "c"], "1\n2\n"),
        (0, ["del", "a", "b", "c"], "2"),
        (0, ["set", "y", "", "ex", "100"], "OK"),
        (1, ["ttl", "y"], None),
        (0, ["epaxos", "lock", "l", "me", "60000"], "1"),
        (1, ["epaxos", "lock", "l", "you", "60000"], ""),
        (2, ["epaxos", "unlock", "l", "me"], "1"),
        (2, ["readonly"], "OK"),
        (0, ["dbsize"], "4"),
        (1, ["keys", "[xy]"], None),
        (2, ["--scan", "--pattern", "*"], None),
        (0, ["nothing"], "ERR unknown command 'nothing'"),
    ]:
        ask = lambda: cli(replica, *words)
        if words[0] == "ttl":
            check("redis-cli ttl", 100 - PATIENCE / 6 < int(ask()) <= 100, True)
        elif words[0] in ("keys", "--scan"):
            all_keys = ["x", "y"] if words[0] == "keys" else ["l", "started", "x", "y"]
            check_soon(f"redis-cli {words[0]}", lambda: sorted(ask().split("\n")), all_keys)
        elif words[0] == "dbsize":
            check_soon("redis-cli dbsize", ask, expected)
        else:
            check(f"redis-cli {' '.join(words)}", ask().rstrip("\n"), expected.rstrip("\n"))
    # (its mass insertion ends with an ECHO)
    lines = "".join(f"SET pipe-{number} {number}\r\n" for number in range(300))
    told = cli(0, "--pipe", lines=lines)
    check("redis-cli --pipe", told.split("\n")[-1], "errors: 0, replies: 300")
    print("redis-cli: tried")


def by_redis_benchmark(cluster):
    if not needs.has("redis-benchmark", "a store and redis-benchmark"):
        return
    for replica, words in enumerate([["-t", "set,get,incr"], ["-t", "set,get,incr", "-P", "16"], ["-t", "set,get", "-P", "16", "-r", "1000"]]):
        port = str(cluster.ports[replica])
        words = ["redis-benchmark", "-p", port, "-n", "1000", "-c", "50", "-q", *words]
        done = subprocess.run(words, capture_output=True, text=True, check=False, timeout=600)
        told = done.stdout.replace("\r", "\n").split("\n")
        rates = [line for line in told if "requests per second" in line]
        check(" ".join(words), (done.returncode, len(rates) >= 2, [line for line in told if "rror" in line], done.stderr), (0, True, [], ""))
        for line in rates:
            print(f"redis-benchmark {' '.join(words[8:])}: {line}")


def by_redis_py(cluster):
    if redis is None:
        needs.skip("a store and redis-py", "this Python has none; Debian has it in python3-redis")
        return

    def client(replica, **words):
        return redis.Redis(port=cluster.ports[replica], **words)

    one, two = client(0, decode_responses=True, client_name="test"), client(1, db=0)
    check("set", one.set("p", "1"), True)
    check("get", two.get("p"), b"1")
    check("set nx px", (one.set("q", "a", nx=True, px=60_000), two.set("q", "b", nx=True, px=60_000)), (True, None))
    check("set get", one.set("q", "c", get=True), "a")
    check("incrby", two.incr("p", 41), 42)
    check("mget", one.mget("p", "q", "none"), ["42", "c", None])
    check("mset", one.mset({"r": "1", "s": "2"}), True)
    check("getdel", one.getdel("r"), "1")
    check("exists", one.exists("p", "q", "r", "s"), 3)
    check("expire", (one.expire("s", 60), 0 < one.pttl("s") <= 60_000, one.persist("s"), one.ttl("s")), (True, True, True, -1))
    check("client", (one.client_getname(), isinstance(one.client_id(), int)), ("test", True))
    check("config", one.config_get("appendonly"), {"appendonly": "yes"})
    # (a store whose core is slow tells a part)
    check_soon("info", lambda: str(one.info().get("replica")), "0")
    check_soon("scan", lambda: sorted(set(one.scan_iter(match="[pqs]", count=3))), ["p", "q", "s"])
    check_soon("dbsize", lambda: one.dbsize() >= 3, True)
    try:
        one.incr("q")
        check("incr of a text", "done", "refused")
    except redis.ResponseError as error:
        check("incr of a text", str(error), "value is not an integer or out of range")

    # A pipeline without a transaction.
    with one.pipeline(transaction=False) as pipe:
        for number in range(500):
            pipe.set(f"pipe-{number}", number)
            pipe.get(f"pipe-{number}")
        check("pipeline", pipe.execute(), [it for number in range(500) for it in (True, str(number))])
    transactions(client)

    # A pool that threads share.
    pool = redis.BlockingConnectionPool(port=cluster.ports[2], max_connections=10, timeout=PATIENCE)
    shared = redis.Redis(connection_pool=pool)

    def count():
        for _ in range(20):
            shared.incr("counted")

    threads = [threading.Thread(target=count) for _ in range(30)]
    for it in threads:
        it.start()
    for it in threads:
        it.join()
    check("a pool", two.get("counted"), b"600")

    # Its lock, at different replicas.
    held, total = [], [0]

    def under_lock(replica):
        mine = client(replica)
        for _ in range(5):
            with mine.lock("py-lock", timeout=2 * PATIENCE, sleep=0.01):
                held.append(replica)
                before = total[0]
                time.sleep(0.002)
                total[0] = before + 1
                check("one holder", len(held), 1)
                held.pop()

    threads = [threading.Thread(target=under_lock, args=(replica,)) for replica in range(3)]
    for it in threads:
        it.start()
    for it in threads:
        it.join()
    check("all under the lock", total[0], 15)
    lock = one.lock("py-lock", timeout=PATIENCE)
    check("lock", (lock.acquire(), two.lock("py-lock", timeout=PATIENCE).acquire(blocking=False)), (True, False))
    time_left = lambda: one.pttl("py-lock") / 1000
    check("extend", (lock.extend(PATIENCE), PATIENCE < time_left() <= 2 * PATIENCE), (True, True))
    check("reacquire", (lock.reacquire(), time_left() <= PATIENCE, lock.owned()), (True, True, True))
    one.delete("py-lock")
    try:
        lock.release()
        check("a lock that is lost", "given back", "refused")
    except redis.exceptions.LockNotOwnedError:
        pass
    print("redis-py: tried")
    words = [sys.executable, f"{EXAMPLES}/lock.py", *map(str, cluster.ports)]
    done = subprocess.run(words, capture_output=True, text=True, check=False, timeout=600)
    check("lock.py", (done.returncode, done.stderr), (0, ""))
    print(f"lock.py: {done.stdout.strip()}")
    leaders(cluster)


def transactions(client):
    """Pipelines as redis-py makes them where nothing is said, WATCH, and what it does by both."""
    one, two = client(0, decode_responses=True), client(1)
    with one.pipeline() as pipe:
        pipe.set("t", "1").incr("t").append("t", "0").get("t").mget("t", "none").rename("t", "t2").delete("t2", "none")
        check("transaction", pipe.execute(), [True, 2, 2, "20", ["20", None], True, 1])
    with one.pipeline() as pipe:
        for number in range(300):
            pipe.set(f"all-{number}", number)
            pipe.get(f"all-{number}")
        check("a long transaction", pipe.execute(), [it for number in range(300) for it in (True, str(number))])
    with one.pipeline() as pipe:
        pipe.set("t", "a").incr("t").set("u", "1")
        told = pipe.execute(raise_on_error=False)
        check("an error in a transaction", [type(it).__name__ for it in told], ["bool", "ResponseError", "bool"])
        check("the others of a transaction", (two.get("t"), two.get("u")), (b"a", b"1"))
        pipe.set("t", "b").execute_command("NOTHING")
        try:
            pipe.execute()
            check("an unknown command in a transaction", "done", "refused")
        except redis.ResponseError as error:
            check("an unknown command in a transaction", "unknown command" in str(error), True)
        check("nothing of a transaction", two.get("t"), b"a")
    with one.pipeline() as pipe:
        pipe.watch("t")
        check("while it watches", pipe.get("t"), "a")
        two.set("t", "c")
        pipe.multi()
        pipe.set("t", "d")
        try:
            pipe.execute()
            check("a watched key that was changed", "done", "refused")
        except redis.WatchError:
            pass
        check("after a watched key was changed", one.get("t"), "c")
        pipe.watch("t", "none")
        pipe.unwatch()
        two.set("t", "e")
        pipe.multi()
        check("after UNWATCH", pipe.set("t", "f").execute(), [True])
    check("msetnx", (one.msetnx({"m1": "1", "m2": "2"}), two.msetnx({"m2": "3", "m3": "4"})), (True, False))
    check("mget", one.mget("m1", "m2", "m3"), ["1", "2", None])
    check("rename", (one.renamenx("m1", "m2"), one.renamenx("m1", "m3"), one.copy("m3", "m4")), (False, True, True))
    check("delete", one.delete("m1", "m2", "m3", "m4"), 3)

    def add(pipe):
        before = int(pipe.get("watched") or 0)
        pipe.multi()
        pipe.set("watched", before + 1)

    def move(replica):
        mine = client(replica)
        for step in range(10):
            mine.transaction(add, "watched")
            with mine.pipeline() as pipe:
                pipe.decrby(f"account-{step % 3}", 5).incrby(f"account-{(step + 1 + replica % 2) % 3}", 5)
                pipe.execute()
            with mine.pipeline() as pipe:
                told = pipe.get("account-0").get("account-1").get("account-2").execute()
                check("a sum", sum(map(int, told)), 300)

    one.mset({f"account-{number}": 100 for number in range(3)})
    threads = [threading.Thread(target=move, args=(replica,)) for replica in range(3)]
    for it in threads:
        it.start()
    for it in threads:
        it.join()
    check("transactions of several", two.get("watched"), b"30")


def by_tls(cluster):
    """redis-py over TLS, which stunnel takes off by the section of clients of examples/stunnel.conf."""
    if redis is None or not needs.has("stunnel4", "a store over TLS") or not needs.has("openssl", "a store over TLS"):
        return
    folder = cluster.folder
    words = "openssl req -x509 -newkey rsa:2048 -nodes -days 2 -subj /CN=localhost -addext subjectAltName=DNS:localhost -keyout key.pem -out ca.pem"
    subprocess.run(words.split(), cwd=folder, check=True, capture_output=True)
    with open(f"{folder}/MACHINE.pem", "w", encoding="utf-8") as pair:
        for name in ("key.pem", "ca.pem"):
            with open(f"{folder}/{name}", encoding="utf-8") as file:
                pair.write(file.read())
    port = cluster.all_ports[6]
    with open(f"{EXAMPLES}/stunnel.conf", encoding="utf-8") as file:
        text = file.read().replace("accept = 7443", f"accept = 127.0.0.1:{port}").replace(":7000", f":{cluster.ports[0]}")
    with open(f"{folder}/stunnel.conf", "w", encoding="utf-8") as file:
        file.write(text)
    running = subprocess.Popen(["stunnel4", "stunnel.conf"], cwd=folder, stdout=subprocess.DEVNULL, stderr=subprocess.DEVNULL)
    try:
        client = redis.Redis(host="localhost", port=port, ssl=True, ssl_ca_certs=f"{folder}/ca.pem", ssl_check_hostname=True)
        start = time.monotonic()
        while True:
            try:
                client.ping()
                break
            except redis.ConnectionError:
                if time.monotonic() - start > PATIENCE:
                    raise
                time.sleep(0.1)
        check("tls", (client.set("by-tls", "1"), client.get("by-tls")), (True, b"1"))
        # Who speaks no TLS is told nothing.
        with socket.create_connection(("127.0.0.1", port), timeout=10) as plain:
            plain.sendall(b"PING\r\n\r\n\r\n\r\n")
            try:
                told = plain.recv(100)
            except OSError:
                told = b""
            check("without tls", b"PONG" in told, False)
        print("tls: tried")
    finally:
        running.kill()
        running.wait()


def leaders(cluster):
    """Two of leader.py; the one that leads is killed, and the other one leads then, in a later term."""
    words = [sys.executable, "-u", f"{EXAMPLES}/leader.py"]
    running = {name: subprocess.Popen([*words, name, str(port)], stdout=subprocess.PIPE, text=True) for name, port in zip("ab", cluster.ports)}
    try:
        name = None
        start = time.monotonic()
        while name is None and time.monotonic() - start < PATIENCE:
            holder = redis.Redis(port=cluster.ports[2]).execute_command("EPAXOS", "HOLDER", "in-charge")
            name = holder[0].decode()[0] if holder else None
        term = holder[1]
        running[name].kill()
        while holder[0].decode()[0] == name and time.monotonic() - start < PATIENCE:
            time.sleep(0.1)
            holder = redis.Redis(port=cluster.ports[2]).execute_command("EPAXOS", "HOLDER", "in-charge") or holder
        check("leader.py", (holder[0].decode()[0] != name, holder[1] > term), (True, True))
        print("leader.py: tried")
    finally:
        for it in running.values():
            it.kill()
            it.communicate()


def main():
    with Cluster(os.path.abspath(sys.argv[1])) as cluster:
        by_redis_cli(cluster)
        by_redis_py(cluster)
        by_tls(cluster)
        by_redis_benchmark(cluster)
        if FAULTS:
            print(cluster.told())
    print(f"{len(FAULTS)} faults")
    return 1 if FAULTS else 0


if __name__ == "__main__":
    sys.exit(main())

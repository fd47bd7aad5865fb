#!/usr/bin/env python3
"""A lock that holds: taking it, renewing it, giving it back, losing it, and the token by which a resource tells an old
holder from the new one; at whichever store answers. Needs redis-py (Debian: python3-redis) and a cluster at the ports
7000, 7001, 7002, or at those that are named:

    python3 lock.py [PORT ..]
"""

import sys
import threading
import time
import uuid

import redis

PORTS = [int(port) for port in sys.argv[1:]] or [7000, 7001, 7002]


class Lost(Exception):
    """The lock is somebody else's by now, or may be."""


class Lock:
    """A lock that is taken for `time` seconds, and renewed by `renew` before they are over.

    `token` rises with each holder. Hand it to whatever the lock guards, which refuses a token below one that it has
    seen. Of the clients, one for each store, the first is asked, and the next one where it can't be reached.
    """

    def __init__(self, clients, name, time):
        self.clients, self.name, self.time = list(clients), name, time
        # No other holder has this name, nor this one at another time.
        self.owner = uuid.uuid4().hex
        self.token = None
        self.until = 0.0

    def _ask(self, command, *words):
        """Asks until there is an answer. All of these commands may be asked twice: they name the owner."""
        while True:
            try:
                return self.clients[0].execute_command("EPAXOS", command, self.name, self.owner, *words)
            except (redis.ConnectionError, redis.TimeoutError):
                self.clients.append(self.clients.pop(0))
                time.sleep(0.01)
            except redis.ResponseError as error:
                if not str(error).startswith("TRYAGAIN"):
                    raise

    def take(self):
        """Waits until it has the lock."""
        while True:
            # (it counts from when it asks, so that it never takes itself for the holder for longer than the store does)
            asked = time.monotonic()
            token = self._ask("LOCK", int(self.time * 1000))
            if token is not None and time.monotonic() < asked + self.time:
                self.token, self.until = token, asked + self.time
                return token
            time.sleep(0.05)

    def renew(self):
        """Has it for `time` seconds from now on; Lost where it isn't the holder any more."""
        asked = time.monotonic()
        if self._ask("RENEW", int(self.time * 1000)) is None:
            raise Lost
        self.until = asked + self.time

    def check(self):
        """Before each step: Lost where its time is over."""
        if time.monotonic() >= self.until:
            raise Lost

    def give_back(self):
        """Whether it had the lock until now."""
        return self._ask("UNLOCK") == 1


class Resource:
    """What the lock guards: a file on another machine, say. It refuses who has an older token than one that it has seen."""

    def __init__(self):
        self.value, self.greatest, self.refused = 0, 0, 0
        self.mutex = threading.Lock()

    def write(self, token, value):
        with self.mutex:
            if token < self.greatest:
                self.refused += 1
                raise Lost
            self.greatest, self.value = token, value


def stores(first):
    """A client for each store, that of this number first. (What takes over a second is asked at the next store.)"""
    return [redis.Redis(port=port, socket_timeout=1) for port in PORTS[first:] + PORTS[:first]]


def work(first, resource, rounds):
    """Adds 1 to the resource, under the lock, so many times."""
    clients = stores(first)
    done = 0
    while done < rounds:
        lock = Lock(clients, "worked-example", time=2)
        lock.take()
        try:
            value = resource.value
            time.sleep(0.01)
            lock.renew()
            lock.check()
            resource.write(lock.token, value + 1)
            done += 1
        except Lost:
            continue
        finally:
            lock.give_back()


def sleep_and_lose(resource):
    """Takes the lock, sleeps for too long, and then doesn't harm: its token is old."""
    lock = Lock(stores(0), "worked-example", time=1)
    lock.take()
    time.sleep(1.5)
    other = Lock(stores(0), "worked-example", time=60)
    other.take()
    assert other.token > lock.token, (other.token, lock.token)
    resource.write(other.token, resource.value)
    try:
        resource.write(lock.token, -1)
        raise AssertionError("an old holder has written")
    except Lost:
        pass
    try:
        lock.renew()
        raise AssertionError("an old holder has renewed")
    except Lost:
        pass
    assert not lock.give_back()
    assert other.give_back()


def main():
    resource = Resource()
    workers = [threading.Thread(target=work, args=(first, resource, 10)) for first in range(len(PORTS))]
    for worker in workers:
        worker.start()
    for worker in workers:
        worker.join()
    assert resource.value == 10 * len(PORTS), resource.value
    sleep_and_lose(resource)
    print(f"{resource.value} steps, each under the lock; the last token was {resource.greatest}")


if __name__ == "__main__":
    main()

#!/usr/bin/env python3
"""Who is in charge: of several processes one leads, as long as it renews its lock; where it ends or hangs, another one takes over, with a
greater term. Needs redis-py and a cluster, as lock.py does. Start it several times, and kill who leads:

    python3 leader.py NAME [PORT ..]
"""

import sys
import time
import uuid

import redis

NAME = sys.argv[1] if len(sys.argv) > 1 else uuid.uuid4().hex[:8]
PORTS = [int(port) for port in sys.argv[2:]] or [7000, 7001, 7002]
KEY = "in-charge"
# A leader that is silent for so many seconds is one no more. It renews three times as often.
TIME = 3.0


def lead(term):
    """What the leader does in each turn: short beside TIME, and with its term in whatever it tells others."""
    print(f"{NAME} leads, term {term}", flush=True)


def follow(holder):
    name, term, _ = holder
    print(f"{name.decode()} leads, term {term}; {NAME} waits", flush=True)


def main():
    # A process that was started again is another one: its name alone would be told the lease that it had before.
    owner = f"{NAME}-{uuid.uuid4().hex[:8]}"
    place, until = 0, 0.0
    while True:
        try:
            client = redis.Redis(port=PORTS[place % len(PORTS)], socket_timeout=TIME)
            while True:
                asked = time.monotonic()
                # Whoever leads has it on; whoever doesn't is told nothing, unless nobody leads.
                term = client.execute_command("EPAXOS", "LOCK", KEY, owner, int(TIME * 1000))
                if term is not None:
                    until = asked + TIME
                    if time.monotonic() < until:
                        lead(term)
                else:
                    holder = client.execute_command("EPAXOS", "HOLDER", KEY)
                    if holder:
                        follow(holder)
                time.sleep(TIME / 3)
        except (redis.ConnectionError, redis.TimeoutError, redis.ResponseError) as error:
            # Another replica may do. Until then it goes on only as long as it was told.
            place += 1
            print(f"{NAME}: {error}; leads for {max(0.0, until - time.monotonic()):.1f} s at most", flush=True)
            time.sleep(0.2)


if __name__ == "__main__":
    try:
        main()
    except KeyboardInterrupt:
        pass

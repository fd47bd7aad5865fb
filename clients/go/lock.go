package epaxos

import (
	"context"
	"crypto/rand"
	"encoding/hex"
	"errors"
	mathrand "math/rand"
	"sync"
	"time"
)

// ErrHeld says that somebody else has the lock.
var ErrHeld = errors.New("epaxos: somebody else has the lock")

// ErrLost says that the lock had been lost before it was given back.
var ErrLost = errors.New("epaxos: the lock had been lost before")

// mostWait is the longest time between two tries to take a lock that somebody else has.
const mostWait = 250 * time.Millisecond

// Lock is a lock that was taken. It is renewed after each third of its time, until it is given back or lost.
//
// A program that is paused for long can't notice in time that it has lost the lock. So hand the token to whatever the
// lock guards, and have that refuse a token below the greatest one that it has seen.
type Lock struct {
	client      *Client
	name, owner string
	ttl         time.Duration
	token       int64
	lost, ended chan struct{}
	stop        context.CancelFunc
	mutex       sync.Mutex
	until       time.Time
}

// Lock waits until it has the lock of this name, or the context ends. If nobody renews it, the lock is free again after
// ttl. The context is for the waiting alone. Waiters aren't served in any order.
func (c *Client) Lock(ctx context.Context, name string, ttl time.Duration) (*Lock, error) {
	return c.await(ctx, name, newOwner(""), ttl)
}

// TryLock takes the lock of this name if nobody has it, as [Client.Lock] does; else the error is [ErrHeld].
func (c *Client) TryLock(ctx context.Context, name string, ttl time.Duration) (*Lock, error) {
	return c.tryLock(ctx, name, newOwner(""), ttl)
}

func (c *Client) await(ctx context.Context, name, owner string, ttl time.Duration) (*Lock, error) {
	for wait := 10 * time.Millisecond; ; wait *= 2 {
		lock, err := c.tryLock(ctx, name, owner, ttl)
		if err != ErrHeld {
			return lock, err
		}
		if wait > mostWait {
			wait = mostWait
		}
		if !sleep(ctx, wait/2+time.Duration(mathrand.Int63n(int64(wait/2)))) {
			return nil, ctx.Err()
		}
	}
}

// newOwner returns a name that no other owner of a lock has, with this text in it.
func newOwner(text string) string {
	var random [16]byte
	if _, err := rand.Read(random[:]); err != nil {
		panic(err)
	}
	return hex.EncodeToString(random[:]) + ":" + text
}

// sleep reports whether the context hasn't ended meanwhile.
func sleep(ctx context.Context, d time.Duration) bool {
	timer := time.NewTimer(d)
	defer timer.Stop()
	select {
	case <-timer.C:
		return true
	case <-ctx.Done():
		return false
	}
}

func (c *Client) tryLock(ctx context.Context, name, owner string, ttl time.Duration) (*Lock, error) {
	ttl = ttl.Truncate(time.Millisecond)
	for {
		got, err := c.do(ctx, command("LOCK", ttl, name, owner, milliseconds(ttl)))
		if errors.Is(err, ErrMaybeDone) {
			// (nobody would give it back)
			go func() {
				ctx, cancel := context.WithTimeout(context.Background(), ttl)
				defer cancel()
				c.do(ctx, command("UNLOCK", ttl, name, owner))
			}()
		}
		token, isTaken := got.value.(int64)
		switch {
		case err != nil:
			return nil, err
		case !isTaken:
			return nil, ErrHeld
		case time.Since(got.sent) < ttl:
			keeping, stop := context.WithCancel(context.Background())
			lock := &Lock{client: c, name: name, owner: owner, ttl: ttl, token: token, stop: stop,
				lost: make(chan struct{}), ended: make(chan struct{}), until: got.sent.Add(ttl)}
			go lock.keep(keeping)
			return lock, nil
		}
	}
}

// command returns a command of locks. All of them name the owner, and may be asked again, at any store.
func command(name string, timeout time.Duration, words ...string) call {
	return call{words: append([]string{"EPAXOS", name}, words...), kind: repeat, timeout: timeout}
}

// Token returns the lock's fencing token: it rises with each holder of the lock.
func (l *Lock) Token() int64 { return l.token }

// Lost returns a channel that is closed once the lock is lost: somebody else has it, or its time is over and no store has
// renewed it. It isn't closed by [Lock.Unlock].
func (l *Lock) Lost() <-chan struct{} { return l.lost }

// Held reports whether the lock is surely held, as far as clocks can tell.
func (l *Lock) Held() bool { return time.Now().Before(l.validUntil()) }

func (l *Lock) validUntil() time.Time {
	l.mutex.Lock()
	defer l.mutex.Unlock()
	return l.until
}

func (l *Lock) setUntil(until time.Time) {
	l.mutex.Lock()
	defer l.mutex.Unlock()
	l.until = until
}

// Unlock gives the lock back. If it had been lost before, the error is [ErrLost]. After any other error the lock is free
// within its ttl at the latest.
func (l *Lock) Unlock(ctx context.Context) error {
	l.stop()
	<-l.ended
	l.setUntil(time.Time{})
	got, err := l.client.do(ctx, command("UNLOCK", l.ttl, l.name, l.owner))
	select {
	case <-l.lost:
		return ErrLost
	default:
	}
	// (asked again, it may have been given back by the first time)
	if err == nil && got.value == int64(0) && !got.again {
		return ErrLost
	}
	return err
}

// keep renews the lock until it is given back or lost.
func (l *Lock) keep(ctx context.Context) {
	defer close(l.ended)
	pause := l.ttl / 3
	for {
		until := l.validUntil()
		if left := time.Until(until); left < pause {
			pause = left
		}
		if !sleep(ctx, pause) {
			return
		}
		// (a store that hangs is left while there is time for another one)
		asking, cancel := context.WithDeadline(ctx, until)
		got, err := l.client.do(asking, command("RENEW", l.ttl/4, l.name, l.owner, milliseconds(l.ttl)))
		cancel()
		_, isRenewed := got.value.(int64)
		switch {
		case ctx.Err() != nil:
			return
		case isRenewed:
			l.setUntil(got.sent.Add(l.ttl))
			pause = l.ttl / 3
		case err == nil || !time.Now().Before(until):
			l.setUntil(time.Time{})
			close(l.lost)
			return
		default:
			pause = l.ttl / 20
		}
	}
}

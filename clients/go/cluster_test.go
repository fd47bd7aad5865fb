package epaxos

import (
	"context"
	"errors"
	"fmt"
	"net"
	"os"
	"os/exec"
	"strings"
	"sync"
	"testing"
	"time"
)

const password = "a password for tests"

// cluster is three stores of the program that EPAXOS_STORE names.
// Its context ends before the time of `go test` is over, so that the stores are killed in any case.
type cluster struct {
	*testing.T
	ctx    context.Context
	folder string
	port   int
	addrs  []string
	stores [3]*exec.Cmd
}

func newCluster(t *testing.T) *cluster {
	if os.Getenv("EPAXOS_STORE") == "" {
		t.Skip("EPAXOS_STORE names no store")
	}
	until, isBounded := t.Deadline()
	if !isBounded {
		until = time.Now().Add(5 * time.Minute)
	}
	ctx, cancel := context.WithDeadline(context.Background(), until.Add(-5*time.Second))
	t.Cleanup(cancel)
	c := &cluster{T: t, ctx: ctx}
	var err error
	if c.folder, err = os.MkdirTemp("", "epaxos-go-"); err != nil {
		t.Fatal(err)
	}
	t.Cleanup(func() { os.RemoveAll(c.folder) })
	// (who listens at a block's first port has the block, as in the tests of hosts/store)
	for block := os.Getpid() % 340; c.port == 0; block = (block + 1) % 340 {
		if held, err := net.Listen("tcp", fmt.Sprintf("127.0.0.1:%d", 10_000+block*64)); err == nil {
			c.port = 10_001 + block*64
			t.Cleanup(func() { held.Close() })
		}
	}
	os.WriteFile(c.folder+"/password", []byte(password), 0o600)
	for i := range c.stores {
		i := i
		c.addrs = append(c.addrs, c.addr(i))
		c.start(i, "--new")
		t.Cleanup(func() { c.kill(i) })
	}
	return c
}

func (c *cluster) addr(i int) string { return fmt.Sprintf("127.0.0.1:%d", c.port+i) }

func (c *cluster) start(i int, words ...string) {
	peers := strings.Join([]string{c.addr(3), c.addr(4), c.addr(5)}, ",")
	words = append(words, "--replica", fmt.Sprint(i), "--peers", peers, "--listen", c.addr(i), "--dir", fmt.Sprint(c.folder, "/", i),
		"--auth", c.folder+"/password")
	c.stores[i] = exec.Command(os.Getenv("EPAXOS_STORE"), words...)
	told, _ := os.OpenFile(c.folder+"/told", os.O_CREATE|os.O_APPEND|os.O_WRONLY, 0o600)
	c.stores[i].Stderr = told
	if err := c.stores[i].Start(); err != nil {
		c.Fatal(err)
	}
	told.Close()
}

func (c *cluster) kill(i int) {
	c.stores[i].Process.Kill()
	c.stores[i].Wait()
}

// open returns a client that uses this store first, once that answers.
func (c *cluster) open(i int, lease time.Duration) *Client {
	for {
		addrs := append(append([]string{}, c.addrs[i:]...), c.addrs[:i]...)
		client, err := Open(c.ctx, addrs, Options{Password: password, Lease: lease})
		if err == nil && client.at == 0 {
			c.Cleanup(client.Close)
			return client
		}
		if !sleep(c.ctx, 50*time.Millisecond) {
			told, _ := os.ReadFile(c.folder + "/told")
			c.Fatalf("%v\n%s", err, told)
		}
	}
}

func TestCommands(t *testing.T) {
	c := newCluster(t)
	ctx := c.ctx
	client, other := c.open(0, 0), c.open(1, 0)
	check := func(wanted string, is ...any) {
		t.Helper()
		if fmt.Sprint(is...) != wanted {
			t.Error(is...)
		}
	}
	all := func(is ...any) string { return fmt.Sprintln(is...) }
	_, err := Open(ctx, c.addrs, Options{Password: "another password"})
	check("true", errors.As(err, new(*RefusedError)))
	check(" false <nil>\n", all(client.Get(ctx, "x")))
	check("<nil>", client.Set(ctx, "x", "\r\n\x00", 0))
	check("\r\n\x00 true <nil>\n", all(other.Get(ctx, "x")))
	check("false <nil>\n", all(other.SetNX(ctx, "x", "1", 0)))
	check("true <nil>\n", all(other.SetNX(ctx, "n", "1", time.Hour)))
	check("false <nil>\n", all(client.CompareAndSet(ctx, "n", "2", "3", 0)))
	check("true <nil>\n", all(client.CompareAndSet(ctx, "n", "1", "3", time.Hour)))
	check("-4 <nil>\n", all(other.Incr(ctx, "n", -7)))
	left, err := other.Do(ctx, "TTL", "n")
	check("true <nil>", left.(int64) > 3000, err)
	check("true <nil>\n", all(client.Del(ctx, "n")))
	check("false <nil>\n", all(other.Del(ctx, "n")))
	for value := ""; value == "" && ctx.Err() == nil; value, _, _ = other.GetLocal(ctx, "x") {
	}
	check("true <nil>\n", all(client.SetNX(ctx, "n", "here again", 0)))
	check("here again true <nil>\n", all(client.Get(ctx, "n")))
	check("<nil>", client.Set(ctx, "brief", "1", time.Millisecond))
	time.Sleep(20 * time.Millisecond)
	check(" false <nil>\n", all(client.Get(ctx, "brief")))
	lock, err := client.TryLock(ctx, "lock", time.Minute)
	if err != nil || !lock.Held() {
		t.Fatal(lock, err)
	}
	_, err = other.TryLock(ctx, "lock", time.Minute)
	check("true", err == ErrHeld)
	_, _, err = client.Get(ctx, "lock")
	check("true", errors.As(err, new(*RefusedError)))
	check("<nil>", lock.Unlock(ctx))
	check("true false", lock.Unlock(ctx) == ErrLost, lock.Held())
	if lock, err = other.TryLock(ctx, "lock", time.Minute); err != nil || lock.Token() != 2 {
		t.Error(lock, err)
	}
}

// While clients take one lock at three stores, one of these is killed and comes back: no two hold the lock at once, what it
// guards refuses no holder, and who holds it at the killed store keeps it by renewing it at another one.
func TestLockWhenAStoreIsKilled(t *testing.T) {
	c := newCluster(t)
	ctx, stop := context.WithCancel(c.ctx)
	var mutex sync.Mutex
	// the greatest token that was seen, and from when until when each one's holder had the lock for sure
	greatest, held := int64(0), map[int64][2]time.Time{}
	hold := func(client *Client, ttl time.Duration, during func(*Lock)) {
		lock, err := client.Lock(c.ctx, "guarded", ttl)
		if err != nil {
			t.Error(err)
			stop()
			return
		}
		from := time.Now()
		mutex.Lock()
		if lock.Token() > greatest {
			greatest = lock.Token()
		} else if lock.Held() {
			t.Error("a holder has an old token")
		}
		mutex.Unlock()
		during(lock)
		until := lock.validUntil()
		if now := time.Now(); now.Before(until) {
			until = now
		}
		mutex.Lock()
		held[lock.Token()] = [2]time.Time{from, until}
		mutex.Unlock()
		if err := lock.Unlock(c.ctx); err != nil && err != ErrLost {
			t.Error(err)
		}
	}
	var group sync.WaitGroup
	for i := range c.stores {
		client := c.open(i, 0)
		group.Add(1)
		go func() {
			defer group.Done()
			for ctx.Err() == nil {
				hold(client, 3*time.Second, func(*Lock) { time.Sleep(5 * time.Millisecond) })
				sleep(ctx, 50*time.Millisecond)
			}
		}()
	}
	isKept := false
	// (where the machine stands still a lock may be lost: then it is tried with more time)
	for ttl := 3 * time.Second; !isKept && ttl <= 12*time.Second && ctx.Err() == nil; ttl *= 2 {
		hold(c.open(1, 0), ttl, func(lock *Lock) {
			c.kill(1)
			select {
			case <-lock.Lost():
			case <-ctx.Done():
			case <-time.After(ttl * 3 / 2):
				isKept = lock.Held()
			}
			c.start(1)
		})
	}
	stop()
	group.Wait()
	if !isKept || len(held) < 3 {
		t.Errorf("kept: %v; %d had the lock", isKept, len(held))
	}
	for one, first := range held {
		for other, second := range held {
			if one < other && first[0].Before(first[1]) && second[0].Before(first[1]) {
				t.Errorf("token %d held until %v, token %d from %v", one, first[1], other, second[0])
			}
		}
	}
}

// sees waits until the leader is seen, and returns its leadership: a later one, if it lost that before, as where the machine
// stands still.
func (c *cluster) sees(seen <-chan Leader, client *Client, value string, leads *Leadership) *Leadership {
	for {
		select {
		case leader, isOpen := <-seen:
			if !isOpen {
				c.Fatalf("nobody saw the leader %s", value)
			}
			if leader == (Leader{value, leads.Term()}) {
				return leads
			}
		case <-leads.Lost():
			var err error
			if leads, err = client.Campaign(c.ctx, "in charge", value); err != nil {
				c.Fatal(err)
			}
		}
	}
}

// A leader that is gone, with its store, is followed by another one: not before its lease is over, and soon after that.
func TestLeaderIsElectedAnew(t *testing.T) {
	const lease, bound = 2 * time.Second, time.Minute
	c := newCluster(t)
	ctx := c.ctx
	first, second, third := c.open(0, lease), c.open(1, lease), c.open(2, lease)
	old, err := first.Campaign(ctx, "in charge", "first")
	if err != nil {
		t.Fatal(err)
	}
	seen := third.Observe(ctx, "in charge")
	old = c.sees(seen, first, "first", old)
	elected := make(chan *Leadership, 1)
	go func() {
		leadership, err := second.Campaign(ctx, "in charge", "second")
		if err != nil {
			t.Error(err)
		}
		elected <- leadership
	}()
	sleep(ctx, lease) // (it renews)
	first.Close()
	c.kill(0)
	gone := time.Now()
	leadership := <-elected
	if leadership == nil {
		t.FailNow()
	}
	if took := time.Since(gone); took > lease+bound || old.Leads() || leadership.Term() <= old.Term() {
		t.Errorf("after %v: terms %d and %d", took, old.Term(), leadership.Term())
	}
	select {
	case <-old.Lost():
	case <-ctx.Done():
		t.Error("not lost")
	}
	leadership = c.sees(seen, second, "second", leadership)
	if err := leadership.Resign(ctx); err != nil && err != ErrLost {
		t.Error(err)
	}
	for leader := range seen {
		if leader.Term == 0 {
			return
		}
	}
	t.Error("nobody saw that the leader resigned")
}

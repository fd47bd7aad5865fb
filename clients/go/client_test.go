package epaxos

import (
	"bufio"
	"context"
	"errors"
	"fmt"
	"net"
	"strings"
	"sync"
	"sync/atomic"
	"testing"
	"time"
)

// fake is a store that answers what it is told to answer: "" has it end the connection in place of a reply, "+BYE" after
// that reply, and "hang" has it say nothing.
type fake struct {
	addr   string
	answer atomic.Value
	mutex  sync.Mutex
	words  []string
}

// asked returns the commands that it was asked, but for pings.
func (f *fake) asked() []string {
	f.mutex.Lock()
	defer f.mutex.Unlock()
	return append([]string{}, f.words...)
}

func newFake(t *testing.T) *fake {
	listener, err := net.Listen("tcp", "127.0.0.1:0")
	if err != nil {
		t.Fatal(err)
	}
	t.Cleanup(func() { listener.Close() })
	f := &fake{addr: listener.Addr().String()}
	f.answer.Store("+PONG")
	go func() {
		for {
			raw, err := listener.Accept()
			if err != nil {
				return
			}
			go f.serve(raw)
		}
	}()
	return f
}

func (f *fake) serve(raw net.Conn) {
	defer raw.Close()
	for from := bufio.NewReader(raw); ; {
		words, err := readReply(from)
		if err != nil {
			return
		}
		if words := fmt.Sprint(words); words != "[PING]" {
			f.mutex.Lock()
			f.words = append(f.words, words)
			f.mutex.Unlock()
		}
		switch answer := f.answer.Load(); answer {
		case "":
			return
		case "hang":
		default:
			fmt.Fprintf(raw, "%s\r\n", answer)
			if answer == "+BYE" {
				return
			}
		}
	}
}

// What is sent to a second store after the first one's answer, and what the caller is told.
func TestNothingIsDoneTwice(t *testing.T) {
	const maybe, refused, done = "maybe done", "refused", "done"
	for _, it := range []struct {
		answer, write, repeated, read string
	}{
		{"", maybe, done, done},
		{"hang", maybe, done, done},
		{"?", maybe, done, done},
		{"-TRYAGAIN no majority has answered in time; the command may still be done", maybe, done, done},
		{"-TRYAGAIN the command was done, and its reply is lost", maybe, done, done},
		{"-OOM the command wasn't done: .. (this is of key 2; .. others may be done)", maybe, done, done},
		{"-TRYAGAIN the command wasn't done: no majority is reached", done, done, done},
		{"-ERR max number of clients reached", done, done, done},
		{"-OOM the command wasn't done: the map has no room for it", refused, refused, refused},
		{"-NOAUTH Authentication required.", refused, refused, refused},
	} {
		for how, wanted := range map[string]string{"write": it.write, "repeated": it.repeated, "read": it.read} {
			t.Run(how+" "+it.answer, func(t *testing.T) {
				within(t, it.answer == "hang", func(timeout time.Duration) error {
					return whatIsDone(t, it.answer, how, wanted, timeout)
				})
			})
		}
	}
}

// within tries it with a time until it is well: one in which nothing but what hangs takes longer, also where the machine is
// slow; of what hangs first a short one.
func within(t *testing.T, hangs bool, try func(time.Duration) error) {
	t.Helper()
	times := []time.Duration{200 * time.Millisecond, 2 * time.Second, 20 * time.Second}
	if !hangs {
		times = times[2:]
	}
	var err error
	for _, it := range times {
		if err = try(it); err == nil {
			return
		}
	}
	t.Fatal(err)
}

// whatIsDone has a command asked of two stores, of which the first one answers so, and tells what isn't as wanted.
func whatIsDone(t *testing.T, answer, how, wanted string, timeout time.Duration) error {
	first, second := newFake(t), newFake(t)
	client, err := Open(context.Background(), []string{first.addr, second.addr}, Options{Timeout: timeout})
	if err != nil {
		return err
	}
	defer client.Close()
	first.answer.Store(answer)
	second.answer.Store("+OK")
	ctx, cancel := context.WithTimeout(context.Background(), time.Minute)
	defer cancel()
	switch how {
	case "write":
		err = client.Set(ctx, "x", "1", 0)
	case "repeated":
		err = client.Repeat().Set(ctx, "x", "1", 0)
	case "read":
		_, _, err = client.Get(ctx, "x")
	}
	var refusal *RefusedError
	is := "done"
	if errors.Is(err, ErrMaybeDone) {
		is = "maybe done"
	} else if errors.As(err, &refusal) {
		is = "refused"
	}
	one, other := first.asked(), second.asked()
	if is != wanted || is == "done" && err != nil || len(one) != 1 || (len(other) == 1) != (is == "done") {
		return fmt.Errorf("%v; asked were %v and %v", err, one, other)
	}
	return nil
}

// A store that was asked first and may still do the command isn't forgotten when the second one refuses it, or none is left.
func TestWhatMayBeDoneIsSaid(t *testing.T) {
	first, second := newFake(t), newFake(t)
	client, err := Open(context.Background(), []string{first.addr, second.addr}, Options{})
	if err != nil {
		t.Fatal(err)
	}
	first.answer.Store("")
	for _, answer := range []string{"-OOM the command wasn't done: ..", "-TRYAGAIN the command wasn't done: ..", "hang"} {
		second.answer.Store(answer)
		within(t, true, func(timeout time.Duration) error {
			client.at = 0
			ctx, cancel := context.WithTimeout(context.Background(), timeout)
			defer cancel()
			err := client.Repeat().Set(ctx, "x", "1", 0)
			if !errors.Is(err, ErrMaybeDone) || answer == "hang" && !errors.Is(err, context.DeadlineExceeded) {
				return fmt.Errorf("%s: %v", answer, err)
			}
			return nil
		})
	}
	client.Close()
	if err := client.Set(context.Background(), "x", "1", 0); !errors.Is(err, ErrClosed) || errors.Is(err, ErrMaybeDone) {
		t.Error(err)
	}
	for _, addr := range []string{"127.0.0.1:1", first.addr} {
		if _, err := Open(context.Background(), []string{addr}, Options{}); err == nil || errors.Is(err, ErrMaybeDone) {
			t.Error(err)
		}
	}
}

// A lock is lost when its time is over and no store has renewed it, and before that if a store says that it isn't held.
func TestLockIsLost(t *testing.T) {
	const patience = 2 * time.Minute
	// (nil comes with a renewal, after a third of the time: the machine may stand still for the rest)
	for answer, ttl := range map[string]time.Duration{"hang": time.Second, "": time.Second, "$-1": 15 * time.Second,
		"-TRYAGAIN the command wasn't done: no majority is reached": time.Second} {
		answer, ttl := answer, ttl
		t.Run(answer, func(t *testing.T) {
			t.Parallel()
			store := newFake(t)
			client, err := Open(context.Background(), []string{store.addr}, Options{Connections: 1})
			if err != nil {
				t.Fatal(err)
			}
			defer client.Close()
			client.slots <- struct{}{} // (a command is under way all the time)
			store.answer.Store(":7")
			began := time.Now()
			ctx, cancel := context.WithTimeout(context.Background(), patience)
			defer cancel()
			lock, err := client.Lock(ctx, "x", ttl)
			if err != nil || lock.Token() != 7 {
				t.Fatal(lock, err)
			}
			store.answer.Store(answer)
			select {
			case <-lock.Lost():
			case <-time.After(patience):
				t.Fatal("not lost")
			}
			if took := time.Since(began); lock.Held() || (took < ttl) != (answer == "$-1") {
				t.Error(took)
			}
		})
	}
}

// A connection that ended while nothing was asked on it isn't used again.
func TestEndedConnection(t *testing.T) {
	store := newFake(t)
	store.answer.Store("+BYE")
	client, err := Open(context.Background(), []string{store.addr}, Options{})
	if err != nil {
		t.Fatal(err)
	}
	defer client.Close()
	for tries := 0; len(client.idle[0][0].replies) == 0 && tries < 2000; tries++ {
		time.Sleep(10 * time.Millisecond)
	}
	store.answer.Store("+OK")
	if err := client.Set(context.Background(), "x", "1", 0); err != nil {
		t.Error(err)
	}
}

// A store answers by itself what is asked for so, and nothing else on the same connection.
func TestLocalReads(t *testing.T) {
	store := newFake(t)
	client, err := Open(context.Background(), []string{store.addr}, Options{})
	if err != nil {
		t.Fatal(err)
	}
	defer client.Close()
	for _, get := range []func(context.Context, string) (string, bool, error){client.GetLocal, client.GetLocal, client.Get, client.Get} {
		get(context.Background(), "x")
	}
	if is := fmt.Sprint(store.asked()); is != "[[READONLY] [GET x] [GET x] [READWRITE] [GET x] [GET x]]" {
		t.Error(is)
	}
}

func TestReplies(t *testing.T) {
	for text, wanted := range map[string]string{
		"+OK\r\n": "OK <nil>", ":-7\r\n": "-7 <nil>", "$3\r\na\r\n\r\n": "a\r\n <nil>", "$-1\r\n": "<nil> <nil>", "$0\r\n\r\n": " <nil>",
		"*2\r\n$1\r\na\r\n*1\r\n:1\r\n": "[a [1]] <nil>", "-ERR no\r\n": "ERR no <nil>", "$3\r\nab": "ab\x00 unexpected EOF",
		"$-2\r\n": `<nil> not a reply: "$-2\r\n"`, "?1\r\n": `<nil> not a reply: "?1\r\n"`, "\n": `<nil> not a reply: "\n"`,
	} {
		value, err := readReply(bufio.NewReader(strings.NewReader(text)))
		if is := fmt.Sprint(value, " ", err); strings.Replace(is, "  ", " ", 1) != wanted && is != wanted {
			t.Errorf("%q: %q", text, is)
		}
	}
}

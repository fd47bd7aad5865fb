// Package epaxos is a client of the replicated store in hosts/store: a map of keys to values, locks with fencing
// tokens, and leader election.
//
// A [Client] is given the addresses of several stores and uses one of them. It goes to the next one if that store is
// gone, doesn't answer in time, or can't reach a majority. What one store has acknowledged, all others show.
//
// # Errors
//
// Each error falls into one of two groups:
//
//   - errors.Is(err, [ErrMaybeDone]): the command was sent, and nobody has said what came of it. It may have been done,
//     or be done later.
//   - any other: the command wasn't done, and won't be. A [*RefusedError] has the store's reason. Otherwise the context
//     ended first, or the client is closed.
//
// A command that only reads is sent again at another store, and so are the commands behind locks, which are made for it.
// A command that writes is sent again only if it is certain that it wasn't done; [Client.Repeat] lifts this.
//
// Give each context a deadline: without one, a command waits until some store answers.
package epaxos

import (
	"context"
	"errors"
	"fmt"
	"net"
	"strconv"
	"strings"
	"sync"
	"time"
)

// ErrMaybeDone matches every error after which a command may still be done, now or later.
var ErrMaybeDone = errors.New("epaxos: the command may still be done")

// ErrClosed is why nothing is done after [Client.Close].
var ErrClosed = errors.New("epaxos: the client is closed")

// MaybeDoneError says why it isn't known whether a command was done. errors.Is finds [ErrMaybeDone] and Cause in it.
type MaybeDoneError struct{ Cause error }

func (e *MaybeDoneError) Error() string        { return fmt.Sprintf("%v: %v", ErrMaybeDone, e.Cause) }
func (e *MaybeDoneError) Unwrap() error        { return e.Cause }
func (e *MaybeDoneError) Is(target error) bool { return target == ErrMaybeDone }

// RefusedError is a store's answer that it hasn't done a command and won't do it.
type RefusedError struct{ Reply string }

func (e *RefusedError) Error() string { return "epaxos: refused: " + e.Reply }

// notDoneError is why a store didn't do a command, which another one may do.
type notDoneError struct{ cause error }

func (e *notDoneError) Error() string { return e.cause.Error() }

// Options of a client. Its zero value will do on one machine.
type Options struct {
	// Password is said first on each connection (the store's --auth).
	Password string
	// Timeout is how long a store may take to answer before the client gives it up. Default: 5 s.
	Timeout time.Duration
	// Connections is how many commands are under way at once; others wait. Those of locks aren't counted. Default: 64.
	Connections int
	// Lease is how long a leader leads without being renewed (see [Client.Campaign]). Default: 5 s.
	Lease time.Duration
	// Dial opens a connection. For TLS, use the method DialContext of a tls.Dialer. Default: that of a net.Dialer.
	Dial func(ctx context.Context, network, address string) (net.Conn, error)
}

// Client is a client of several stores. Goroutines may share it.
type Client struct {
	*pool
	repeats bool
}

// pool is what a client and its copies share: the connections that aren't in use, of each store, and which store is used.
type pool struct {
	addrs  []string
	opts   Options
	slots  chan struct{}
	closed chan struct{}
	mutex  sync.Mutex
	at     int
	idle   [][]*conn
}

// Open returns a client of these stores, once one of them has answered. It tries each of them once; the first one that
// answers is used from then on.
func Open(ctx context.Context, addrs []string, opts Options) (*Client, error) {
	if len(addrs) == 0 {
		return nil, errors.New("epaxos: no addresses")
	}
	for _, it := range []*time.Duration{&opts.Timeout, &opts.Lease} {
		if *it <= 0 {
			*it = 5 * time.Second
		}
	}
	if opts.Connections <= 0 {
		opts.Connections = 64
	}
	if opts.Dial == nil {
		opts.Dial = new(net.Dialer).DialContext
	}
	p := &pool{addrs: append([]string(nil), addrs...), opts: opts, idle: make([][]*conn, len(addrs)),
		slots: make(chan struct{}, opts.Connections), closed: make(chan struct{})}
	client := &Client{pool: p}
	var last error
	for i := range addrs {
		if _, last = p.once(ctx, call{words: []string{"PING"}}); last == nil {
			return client, nil
		}
		p.next(i)
	}
	client.Close()
	if errors.Is(last, ErrMaybeDone) { // nothing was to be done
		last = errors.Unwrap(last)
	}
	return nil, fmt.Errorf("epaxos: no store answers, at last: %w", last)
}

// Close ends all connections. Locks that are held aren't renewed any more: unlock them first.
func (c *Client) Close() {
	c.mutex.Lock()
	defer c.mutex.Unlock()
	select {
	case <-c.closed:
		return
	default:
	}
	close(c.closed)
	for _, conns := range c.idle {
		for _, conn := range conns {
			conn.Close()
		}
	}
}

// Repeat returns a client over the same connections that sends a command again when it may have been done already. So
// the command may be done twice, the second time after what others have written meanwhile.
func (c *Client) Repeat() *Client { return &Client{pool: c.pool, repeats: true} }

// kind is when a command may be sent again although it may have been done.
type kind int

const (
	once   kind = iota // never, unless the caller has asked for it
	repeat             // always
	read               // always, and it changes nothing
)

type call struct {
	words   []string
	kind    kind
	local   bool
	timeout time.Duration
}

// answer is a store's reply, when its command was sent, and whether it had been sent before.
type answer struct {
	value any
	sent  time.Time
	again bool
}

// do has a command done by the store that is used, or by others.
func (c *Client) do(ctx context.Context, it call) (answer, error) {
	if it.kind != repeat { // (a renewal doesn't wait for other commands)
		select {
		case c.slots <- struct{}{}:
			defer func() { <-c.slots }()
		case <-ctx.Done():
		}
	}
	var maybe, last error
	for tries := 0; ; tries++ {
		if err := c.pause(ctx, tries); err != nil {
			if last != nil {
				err = fmt.Errorf("%w, at last: %v", err, last)
			}
			if maybe != nil && it.kind != read {
				return answer{}, &MaybeDoneError{err}
			}
			return answer{}, fmt.Errorf("epaxos: not done: %w", err)
		}
		sent := time.Now()
		value, err := c.once(ctx, it)
		switch err := err.(type) {
		case nil:
			return answer{value, sent, maybe != nil}, nil
		case *RefusedError:
			if maybe != nil && it.kind != read {
				return answer{}, &MaybeDoneError{err}
			}
			return answer{}, err
		case *MaybeDoneError:
			if it.kind == once && !c.repeats {
				return answer{}, err
			}
			maybe = err
		}
		last = err
	}
}

// pause waits each time that all stores have been tried. It returns why no other try is to be made.
func (p *pool) pause(ctx context.Context, tries int) error {
	if tries > 0 && tries%len(p.addrs) == 0 {
		sleep(ctx, 100*time.Millisecond)
	}
	select {
	case <-p.closed:
		return ErrClosed
	default:
		return ctx.Err()
	}
}

// once has one store asked. The error is a notDoneError, a *MaybeDoneError or a *RefusedError.
func (p *pool) once(ctx context.Context, it call) (any, error) {
	timeout := it.timeout
	if timeout <= 0 || timeout > p.opts.Timeout {
		timeout = p.opts.Timeout
	}
	ctx, cancel := context.WithTimeout(ctx, timeout)
	defer cancel()
	conn, err := p.take(ctx)
	if err != nil {
		return nil, err
	}
	value, err := conn.ask(ctx, p.closed, it.local, it.words)
	if err != nil {
		p.leave(conn)
		return nil, &MaybeDoneError{fmt.Errorf("%s: %w", p.addrs[conn.place], err)}
	}
	if refused, ok := value.(refusal); ok {
		err = judge(string(refused))
	}
	if _, ok := err.(*RefusedError); ok || err == nil {
		p.put(conn)
	} else {
		p.leave(conn)
	}
	return value, err
}

// judge says what an error reply means: that another store may do the command, that it may still be done, or neither.
func judge(text string) error {
	err := &RefusedError{text}
	switch {
	case strings.HasPrefix(text, "ERR max number of clients"):
		return &notDoneError{err}
	case strings.Contains(text, "may be done"), strings.Contains(text, "may still be done"):
		return &MaybeDoneError{err}
	case !strings.HasPrefix(text, "TRYAGAIN"):
		return err
	case strings.Contains(text, "wasn't done"), strings.Contains(text, "takes no part"):
		return &notDoneError{err}
	}
	return &MaybeDoneError{err}
}

// take returns a connection to the store that is used.
func (p *pool) take(ctx context.Context) (*conn, error) {
	p.mutex.Lock()
	place := p.at
	for free := p.idle[place]; len(free) > 0; free = p.idle[place] {
		conn := free[len(free)-1]
		p.idle[place] = free[:len(free)-1]
		if len(conn.replies) == 0 { // else it has ended
			p.mutex.Unlock()
			return conn, nil
		}
		conn.Close()
	}
	p.mutex.Unlock()
	raw, err := p.opts.Dial(ctx, "tcp", p.addrs[place])
	if err != nil {
		p.next(place)
		return nil, &notDoneError{err}
	}
	conn := newConn(raw, place)
	if p.opts.Password == "" {
		return conn, nil
	}
	value, err := conn.ask(ctx, p.closed, false, []string{"AUTH", p.opts.Password})
	if refused, ok := value.(refusal); ok {
		err = judge(string(refused))
	}
	if err == nil {
		return conn, nil
	}
	p.leave(conn)
	if refused, ok := err.(*RefusedError); ok {
		return nil, refused
	}
	return nil, &notDoneError{err}
}

// put keeps a connection for the next command.
func (p *pool) put(conn *conn) {
	p.mutex.Lock()
	defer p.mutex.Unlock()
	select {
	case <-p.closed:
		conn.Close()
	default:
		p.idle[conn.place] = append(p.idle[conn.place], conn)
	}
}

// leave ends a connection, and goes to the next store.
func (p *pool) leave(conn *conn) {
	conn.Close()
	p.next(conn.place)
}

func (p *pool) next(place int) {
	p.mutex.Lock()
	defer p.mutex.Unlock()
	if p.at == place {
		p.at = (place + 1) % len(p.addrs)
	}
}

// Do has any other command of the store done, and returns its reply: nil, an int64, a string or an []any. It isn't for
// commands that change the connection, such as AUTH or READONLY.
func (c *Client) Do(ctx context.Context, words ...string) (any, error) {
	got, err := c.do(ctx, call{words: words})
	return got.value, err
}

// Get returns the value of a key, and whether there is one.
func (c *Client) Get(ctx context.Context, key string) (value string, found bool, err error) {
	return c.get(ctx, key, false)
}

// GetLocal is [Client.Get] by one store alone: at once, without a majority, and maybe not the latest value.
func (c *Client) GetLocal(ctx context.Context, key string) (value string, found bool, err error) {
	return c.get(ctx, key, true)
}

func (c *Client) get(ctx context.Context, key string, local bool) (value string, found bool, err error) {
	got, err := c.do(ctx, call{words: []string{"GET", key}, kind: read, local: local})
	value, found = got.value.(string)
	return value, found, err
}

// Set gives a key a value, which expires after ttl; with a ttl of 0 it stays.
func (c *Client) Set(ctx context.Context, key, value string, ttl time.Duration) error {
	_, err := c.set(ctx, ttl, key, value)
	return err
}

// SetNX is [Client.Set] if the key has no value. It returns whether it had none, and has this one now.
func (c *Client) SetNX(ctx context.Context, key, value string, ttl time.Duration) (bool, error) {
	return c.set(ctx, ttl, key, value, "NX")
}

// CompareAndSet is [Client.Set] of a new value if the key has the old one. It returns whether it had.
func (c *Client) CompareAndSet(ctx context.Context, key, old, value string, ttl time.Duration) (bool, error) {
	return c.set(ctx, ttl, key, value, "IFEQ", old)
}

func (c *Client) set(ctx context.Context, ttl time.Duration, words ...string) (bool, error) {
	words = append([]string{"SET"}, words...)
	if ttl != 0 {
		words = append(words, "PX", milliseconds(ttl))
	}
	got, err := c.do(ctx, call{words: words})
	return got.value != nil, err
}

func milliseconds(time time.Duration) string { return strconv.FormatInt(time.Milliseconds(), 10) }

// Del removes a key. It returns whether there was one.
func (c *Client) Del(ctx context.Context, key string) (bool, error) {
	got, err := c.do(ctx, call{words: []string{"DEL", key}})
	return got.value == int64(1), err
}

// Incr adds a number to a key's value, which is a decimal number, or 0 if there is none. It returns the sum.
func (c *Client) Incr(ctx context.Context, key string, by int64) (int64, error) {
	got, err := c.do(ctx, call{words: []string{"INCRBY", key, strconv.FormatInt(by, 10)}})
	sum, _ := got.value.(int64)
	return sum, err
}

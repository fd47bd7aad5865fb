package epaxos

import "context"

// Leader is who leads, and since which term. Without a leader, Term is 0.
type Leader struct {
	// Value is what the leader has campaigned with: its address, say.
	Value string
	// Term rises with each leader.
	Term int64
}

// Leadership is an election that was won. It is renewed until the leader resigns or it is lost.
//
// A leader that is paused for long can't notice in time that another one leads. So have the term in all that the leader
// tells others, and have them refuse a term below the greatest one that they have seen.
type Leadership struct{ lock *Lock }

// Campaign waits until this client leads in the election of this name, or the context ends. Others see value, which has
// at most 222 bytes. Once a leader is gone, another one leads within the lease of [Options], and a fraction of a second.
// An election is a lock: don't use its name for another one.
func (c *Client) Campaign(ctx context.Context, name, value string) (*Leadership, error) {
	lock, err := c.await(ctx, name, newOwner(value), c.opts.Lease)
	if err != nil {
		return nil, err
	}
	return &Leadership{lock}, nil
}

// Term returns the leader's term, a fencing token: it rises with each leader.
func (l *Leadership) Term() int64 { return l.lock.Token() }

// Lost returns a channel that is closed once the leadership is lost, as [Lock.Lost] says.
func (l *Leadership) Lost() <-chan struct{} { return l.lock.Lost() }

// Leads reports whether this client surely leads, as far as clocks can tell.
func (l *Leadership) Leads() bool { return l.lock.Held() }

// Resign lets another one lead at once. Its errors are those of [Lock.Unlock].
func (l *Leadership) Resign(ctx context.Context) error { return l.lock.Unlock(ctx) }

// Leader returns who leads in the election of this name.
func (c *Client) Leader(ctx context.Context, name string) (Leader, error) {
	got, err := c.do(ctx, call{words: []string{"EPAXOS", "HOLDER", name}, kind: read})
	holder, _ := got.value.([]any)
	if err != nil || len(holder) != 3 {
		return Leader{}, err
	}
	value, _ := holder[0].(string)
	term, _ := holder[1].(int64)
	// (the leader may be of another client, whose owners are spelled otherwise)
	if own := len(newOwner("")); len(value) >= own && value[own-1] == ':' {
		value = value[own:]
	}
	return Leader{value, term}, nil
}

// Observe tells who leads, now and after each change, until the context ends and the channel is closed. It asks five times
// a lease: a leader who comes and goes between two answers, or while nobody receives, is missed.
func (c *Client) Observe(ctx context.Context, name string) <-chan Leader {
	told := make(chan Leader)
	go func() {
		defer close(told)
		last := Leader{Term: -1}
		for {
			if leader, err := c.Leader(ctx, name); err == nil && leader != last {
				select {
				case told <- leader:
					last = leader
				case <-ctx.Done():
					return
				}
			}
			if !sleep(ctx, c.opts.Lease/5) {
				return
			}
		}
	}()
	return told
}

package epaxos

import (
	"bufio"
	"context"
	"fmt"
	"io"
	"net"
	"strconv"
)

// mostBytes is the longest text, and the longest list, that is taken from a store.
const mostBytes = 64 << 20

// refusal is an error reply, as the store worded it.
type refusal string

// reply is one reply of a store: nil, int64, string, []any or refusal; or why there is none.
type reply struct {
	value any
	err   error
}

// conn is one connection to a store. Its replies come from a goroutine that reads them until the connection ends,
// so an idle connection that was closed has the reason waiting there.
type conn struct {
	net.Conn
	place   int
	local   bool
	replies chan reply
}

func newConn(raw net.Conn, place int) *conn {
	c := &conn{Conn: raw, place: place, replies: make(chan reply, 8)}
	go func() {
		defer raw.Close()
		from := bufio.NewReader(raw)
		// (a store that tells more than it is asked for isn't read any further)
		for len(c.replies) < cap(c.replies) {
			value, err := readReply(from)
			if c.replies <- (reply{value, err}); err != nil {
				return
			}
		}
	}()
	return c
}

// ask sends a command and waits for its reply. After an error the connection must not be used again.
func (c *conn) ask(ctx context.Context, closed <-chan struct{}, local bool, words []string) (any, error) {
	bytes, awaited := appendCommand(nil, words), 1
	if local != c.local {
		mode := map[bool]string{true: "READONLY", false: "READWRITE"}[local]
		bytes, awaited = append(appendCommand(nil, []string{mode}), bytes...), 2
	}
	until, _ := ctx.Deadline()
	c.SetWriteDeadline(until)
	if _, err := c.Write(bytes); err != nil {
		return nil, err
	}
	c.local = local
	for {
		select {
		case got := <-c.replies:
			if awaited--; awaited == 0 || got.err != nil {
				return got.value, got.err
			}
		case <-ctx.Done():
			return nil, ctx.Err()
		case <-closed:
			return nil, ErrClosed
		}
	}
}

func appendCommand(to []byte, words []string) []byte {
	to = append(to, fmt.Sprintf("*%d\r\n", len(words))...)
	for _, word := range words {
		to = append(append(append(to, fmt.Sprintf("$%d\r\n", len(word))...), word...), "\r\n"...)
	}
	return to
}

func readReply(from *bufio.Reader) (any, error) {
	line, err := from.ReadString('\n')
	if err != nil {
		return nil, err
	}
	if len(line) < 3 || line[len(line)-2] != '\r' {
		return nil, fmt.Errorf("not a reply: %q", line)
	}
	kind, text := line[0], line[1:len(line)-2]
	switch kind {
	case '+':
		return text, nil
	case '-':
		return refusal(text), nil
	}
	number, err := strconv.ParseInt(text, 10, 64)
	if err != nil {
		return nil, fmt.Errorf("not a reply: %q", line)
	}
	switch {
	case kind == ':':
		return number, nil
	case number == -1 && (kind == '$' || kind == '*'):
		return nil, nil
	case number < 0 || number > mostBytes:
	case kind == '$':
		bytes := make([]byte, number+2)
		_, err := io.ReadFull(from, bytes)
		return string(bytes[:number]), err
	case kind == '*':
		list := []any{}
		for ; number > 0; number-- {
			value, err := readReply(from)
			if err != nil {
				return nil, err
			}
			list = append(list, value)
		}
		return list, nil
	}
	return nil, fmt.Errorf("not a reply: %q", line)
}

// Package apf is a priority level in front of a server: it decides which request executes next, so that one noisy
// client can't starve the others. The decisions are not made here. The program apf makes them, as a process behind two
// pipes (its command serve). This package starts that process, sends it a line for each request that comes and one for
// each that ends, and starts it again where it dies. Start opens a level, Acquire waits for the seats of a request, and
// Release gives them back. Handler does both around an http.Handler.
package apf

import (
	"context"
	"encoding/json"
	"errors"
	"fmt"
	"net/http"
	"net/netip"
	"strconv"
	"strings"
	"time"
)

// Options says which level Start opens.
type Options struct {
	// Program is the program apf, as a path or a name on the search path. It is "apf" where it is empty.
	Program string
	// Config is the path of the level's config file. Start and Reload read it, and a level that died has the same again.
	Config string
	// Slots is how many requests may be there at once, waiting and running: 1 to 10,000. It is 10,000 where it is 0.
	Slots int
	// Name is the level's name in its metrics. It is "level" where it is empty.
	Name string
	// Patience is how long the level may leave questions without answer before it counts as dead: 5 s where it is 0.
	Patience time.Duration
	// Log, where it is not nil, is told in one line that the level died, or why it does not start again.
	Log func(line string)
}

// Request is what a request asks of the level.
type Request struct {
	// Schema and Distinguisher name the flow of the request. Schema is the level's name where it is empty.
	Schema        string `json:"schema"`
	Distinguisher string `json:"distinguisher"`
	// Width is how many seats the request takes while it runs, 1 to 20,000. It is 1 where it is 0.
	Width int `json:"width,omitempty"`
	// Cost is what its dispatch is charged. The level chooses it where it is 0.
	Cost int `json:"cost,omitempty"`
}

// Rejected is the error of a request that the level rejects. Its reason is queue-full, concurrency-limit or closed.
type Rejected struct{ Reason string }

// Error says that the request was rejected, and why.
func (r *Rejected) Error() string { return "apf: rejected: " + r.Reason }

// Fault is the error of a line that the level could not carry out, as one with a name too long. Text is the level's.
type Fault struct{ Text string }

// Error says what was wrong with the line.
func (f *Fault) Error() string { return "apf: fault: " + f.Text }

// ErrShutdown is the error of a request that comes, or still waits, when the level is shut down.
var ErrShutdown = errors.New("apf: the level is shut down")

// ErrDown is the error of a question that was open when the level died, or that comes while it is away.
var ErrDown = errors.New("apf: the level is not there")

// Seat is held by a request that runs.
type Seat struct {
	level   *Level
	request *request
}

// Acquire waits until the request has its seats. Who has the Seat runs, and must call Release. Else the error is a
// *Rejected, a *Fault, ErrShutdown, or the context's error once the level has said that the request was cancelled. If
// the context ends too late for that, the request has its seats, and Acquire returns the Seat. Where all numbers are in
// use it waits for one first, within the context.
func (l *Level) Acquire(ctx context.Context, ask Request) (*Seat, error) {
	ask.Schema = or(ask.Schema, l.options.Name)
	// a text that is no UTF-8 has U+FFFD where it is broken
	object, _ := json.Marshal(ask)
	if len("arrive 10000 ")+len(object) > maxLine {
		return nil, &Fault{"line too long"}
	}
	r := &request{object: object, width: or(ask.Width, 1), told: make(chan error, 1)}
	if ctx.Err() != nil {
		return nil, ctx.Err()
	}
	select {
	case r.number = <-l.free:
	case <-ctx.Done():
		return nil, ctx.Err()
	case <-l.ending.Done():
		return nil, ErrShutdown
	}
	l.mu.Lock()
	l.enter(r)
	l.mu.Unlock()
	var err error
	select {
	case err = <-r.told:
	case <-ctx.Done():
		// the level's answer decides whether this came in time
		l.mu.Lock()
		if r.leaves = ctx.Err(); r.stage < runs && l.pipe != nil {
			l.pipe.ask("cancel", r)
		} else if r.stage < runs {
			l.refuse(r, r.leaves)
		}
		l.mu.Unlock()
		err = <-r.told
	}
	if err != nil {
		return nil, err
	}
	return &Seat{l, r}, nil
}

// Release gives the seats back, and tells the level how long the request ran. Only the first call does something.
func (s *Seat) Release() {
	l, r := s.level, s.request
	l.mu.Lock()
	defer l.mu.Unlock()
	if r.stage != runs {
		return
	}
	r.stage = over
	l.seats -= r.width
	if l.pipe != nil && r.known {
		// its number is free once the level has said so
		l.pipe.ask("finish", r)
	} else {
		l.drop(r)
	}
}

// Book is what the level counted since it was opened, or since it was started again after it died: whether it lets
// requests in, the seats in use, the requests that wait, those decided and undecided, the rejected by their reasons,
// and those that entered a queue and left it by their turn or a cancel.
type Book struct {
	Open                                     bool
	Seats, Waiting                           int64
	Executed, Rejected, Cancelled, Undecided int64
	QueueFull, Closed, ConcurrencyLimit      int64
	Entered, Dispatched, Struck              int64
}

func bookOf(text string) (b Book, err error) {
	var state string
	_, err = fmt.Sscanf(text, "level %s seats %d waiting %d\nexecuted %d rejected %d cancelled %d undecided %d\n"+
		"queue-full %d closed %d concurrency-limit %d\nentered %d dispatched %d struck %d\n",
		&state, &b.Seats, &b.Waiting, &b.Executed, &b.Rejected, &b.Cancelled, &b.Undecided,
		&b.QueueFull, &b.Closed, &b.ConcurrencyLimit, &b.Entered, &b.Dispatched, &b.Struck)
	b.Open = state == "open"
	return b, err
}

// Queue is one queue of the level: its number from 0, how many requests wait in it and entered it, and what was
// dispatched from it, as the level charges it.
type Queue struct {
	Number                    int
	Waiting, Entered, Service int64
}

// Book asks the level for its book.
func (l *Level) Book(ctx context.Context) (Book, error) {
	text, err := l.ask(ctx, "book", "entered ", nil)
	if err != nil {
		return Book{}, err
	}
	return bookOf(text)
}

// Queues asks the level for each queue that a request ever entered.
func (l *Level) Queues(ctx context.Context) (queues []Queue, err error) {
	text, err := l.ask(ctx, "queues", "end", nil)
	for err == nil && text != "end\n" {
		var q Queue
		form := "queue %d waiting %d entered %d service %d\n"
		_, err = fmt.Sscanf(text, form, &q.Number, &q.Waiting, &q.Entered, &q.Service)
		queues = append(queues, q)
		_, text, _ = strings.Cut(text, "\n")
	}
	return queues, err
}

// Metrics asks the level for its metrics, in the text format of Prometheus, with "# EOF" as the last line.
func (l *Level) Metrics(ctx context.Context) (string, error) {
	return l.ask(ctx, "metrics", "# EOF", nil)
}

// SetLimit gives the level this many seats, 1 to 10,000, and answers how many it had. No seats are taken back. A level
// that is started again has the limit that was set last.
func (l *Level) SetLimit(ctx context.Context, seats int) (was int, err error) {
	if seats < 1 || seats > maxLimit {
		return 0, &Fault{"bad limit"}
	}
	var had int
	_, err = l.ask(ctx, fmt.Sprintf("limit %d", seats), "limit ", func() { had, l.limit = l.limit, seats })
	if err != nil {
		return 0, err
	}
	return had, nil
}

// CloseLevel closes the level: no request takes seats or enters a queue any more, and those that wait are still served.
// It answers whether this is the first time. A level that is started again is closed again.
func (l *Level) CloseLevel(ctx context.Context) (first bool, err error) {
	var had bool
	_, err = l.ask(ctx, "close", "close ", func() { had, l.closed = l.closed, true })
	return err == nil && !had, err
}

// Restarts is how many times the level was started again.
func (l *Level) Restarts() int { return int(l.restarts.Load()) }

// Handler calls next for a request once it has its seats, and gives them back when next has returned. The function says
// what a request asks, as ByHeader does. A request that has no seats is answered by Refuse. A request whose client goes
// away while it waits is cancelled. How long it may wait is for its context to say.
func Handler(level *Level, next http.Handler, asks func(*http.Request) Request) http.Handler {
	return http.HandlerFunc(func(w http.ResponseWriter, r *http.Request) {
		seat, err := level.Acquire(r.Context(), asks(r))
		if err != nil {
			Refuse(w, err)
			return
		}
		defer seat.Release()
		next.ServeHTTP(w, r)
	})
}

// ByHeader takes the flow of a request from the header of this name, and its width from X-Seats, where the request
// comes from one of these addresses, or from 127.0.0.1 where none is given. Else, and where it has no such header, its
// flow is its client's address and its width is 1. What is not trusted is taken out of its headers, and so is what some
// servers read as the same names. No header Connection can say that the two are not to be passed on.
func ByHeader(name string, trusted ...netip.Prefix) func(*http.Request) Request {
	if len(trusted) == 0 {
		trusted = []netip.Prefix{netip.MustParsePrefix("127.0.0.1/32")}
	}
	isOne := func(word string) bool { return strings.EqualFold(word, name) || strings.EqualFold(word, "X-Seats") }
	return func(r *http.Request) Request {
		ask, isTrusted := Request{Distinguisher: r.RemoteAddr, Width: 1}, false
		if peer, err := netip.ParseAddrPort(r.RemoteAddr); err == nil {
			address := peer.Addr().Unmap().WithZone("")
			ask.Distinguisher = address.String()
			for _, those := range trusted {
				isTrusted = isTrusted || those.Contains(address)
			}
		}
		for field := range r.Header {
			// a server behind may read X_Seats as X-Seats
			if like := strings.ReplaceAll(field, "_", "-"); isOne(like) && (!isTrusted || like != field) {
				delete(r.Header, field)
			}
		}
		for i, value := range r.Header["Connection"] {
			words := strings.Split(value, ",")
			for at, word := range words {
				if isOne(strings.TrimSpace(word)) {
					words[at] = ""
				}
			}
			r.Header["Connection"][i] = strings.Join(words, ",")
		}
		if values := r.Header.Values(name); len(values) > 0 {
			ask.Distinguisher = or(values[len(values)-1], ask.Distinguisher)
		}
		if n, err := strconv.ParseUint(r.Header.Get("X-Seats"), 10, 32); err == nil && n >= 1 && n <= maxWidth {
			ask.Width = int(n)
		}
		return ask
	}
}

// Refuse answers a request for which Acquire had this error: 429 with Retry-After and the reason where the level
// rejects it, 431 where the level can't read it, and 503 where it waited in vain. It answers the decision in a word.
func Refuse(w http.ResponseWriter, err error) string {
	var rejected *Rejected
	var fault *Fault
	if errors.As(err, &fault) {
		http.Error(w, fault.Text, http.StatusRequestHeaderFieldsTooLarge)
		return "fault"
	}
	w.Header().Set("Retry-After", "1")
	if errors.As(err, &rejected) {
		http.Error(w, rejected.Reason, http.StatusTooManyRequests)
		return rejected.Reason
	}
	http.Error(w, "no seat in time", http.StatusServiceUnavailable)
	return "cancelled"
}

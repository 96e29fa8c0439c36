package apf

import (
	"context"
	"errors"
	"fmt"
	"sort"
	"strconv"
	"strings"
	"sync"
	"sync/atomic"
	"time"
)

// These are a level's longest line, without its end, its largest limit, and its widest request.
const maxLine, maxLimit, maxWidth = 65536, 10000, 20000

// stage says how far a request is: it asks first, waits in a queue or for another level, has its seats, or has ended.
type stage int

const asked, waits, runs, over stage = 0, 1, 2, 3

// request is one request from its number to its end. The level's lock guards it.
type request struct {
	number, width int
	object        []byte
	stage         stage
	came          uint64     // its place in the order in which requests came, and 0 once it runs
	since         time.Time  // when it got its seats
	known         bool       // the level may have it among those that run, and is owed a finish
	leaves        error      // why its cancel was sent
	told          chan error // hears once that it runs (nil), or why it does not
}

// Level is a level that stays open for a server's whole life. Its methods may be called by many goroutines at once.
type Level struct {
	options Options
	config  []byte   // what the config file had
	shape   string   // what the level's first line said of it beside the limit
	free    chan int // the numbers of no request; who waits for one is served in order
	// Shutdown ends ending, and stopped once it waits for nobody any more. done is closed when the level has ended.
	ending, stopped context.Context
	end, stop       context.CancelFunc
	done            chan struct{}
	ended           atomic.Bool   // Shutdown was called
	pause           time.Duration // how long the next level is waited for
	restarts        atomic.Int64

	mu     sync.Mutex // guards all below, each request and each pipe's questions; it is never held over a system call
	pipe   *pipe      // leads to the level's process, and is nil while there is none
	there  []*request // the requests by their numbers
	came   uint64
	limit  int
	seats  int // how many the running requests have together
	closed bool
}

// enter asks the level for the seats of a request. While no level is there, a plain limit of as many seats decides.
func (l *Level) enter(r *request) {
	l.came++
	r.came, l.there[r.number] = l.came, r
	switch {
	case l.ending.Err() != nil:
		l.refuse(r, ErrShutdown)
	case l.pipe != nil:
		l.pipe.ask("arrive", r)
	case l.closed:
		l.refuse(r, &Rejected{"closed"})
	case l.seats == 0 || l.seats+r.width <= l.limit:
		l.run(r)
	default:
		l.refuse(r, &Rejected{"concurrency-limit"})
	}
}

// run lets a request run.
func (l *Level) run(r *request) {
	r.stage, r.came, r.since = runs, 0, time.Now()
	l.seats += r.width
	r.told <- nil
}

// refuse ends a request that did not run, and frees its number.
func (l *Level) refuse(r *request, why error) {
	r.stage = over
	r.told <- why
	l.drop(r)
}

// drop frees the number of a request that is over.
func (l *Level) drop(r *request) {
	l.there[r.number] = nil
	l.free <- r.number
}

// adopt makes this pipe the level's. The limit is restored, those that run are tried in, those that wait arrive in the
// order in which they came, and the level is closed again.
func (l *Level) adopt(p *pipe) {
	l.pipe = p
	l.restarts.Add(1)
	// it ends at once where Shutdown has gone on meanwhile
	p.closing = l.stopped.Err() != nil
	if l.limit != p.limit {
		p.send(fmt.Sprintf("limit %d\n", l.limit), &question{last: "limit ", told: make(chan error, 1)})
	}
	var there []*request
	for _, r := range l.there {
		if r != nil {
			there = append(there, r)
		}
	}
	sort.SliceStable(there, func(i, j int) bool { return there[i].came < there[j].came })
	for _, r := range there {
		p.ask(map[stage]string{runs: "try", waits: "arrive"}[r.stage], r)
	}
	if l.closed {
		p.send("close\n", &question{last: "close ", told: make(chan error, 1)})
	}
}

// lose settles what was open when the level died: a line that was not answered counts as not done.
func (l *Level) lose(p *pipe) {
	l.pipe, p.closing = nil, true
	p.wake.Signal()
	for _, q := range p.asked {
		switch {
		case q.word == "finish":
			l.drop(q.request)
		case q.word == "cancel" && q.request.stage <= waits:
			l.refuse(q.request, q.request.leaves)
		case q.told != nil:
			q.told <- ErrDown
		}
	}
	// those that wait ask the next level, and end where none comes, or where it is closed to them
	for _, r := range l.there {
		switch {
		case r == nil || r.stage >= runs:
		case l.stopped.Err() != nil:
			l.refuse(r, ErrShutdown)
		case r.stage == asked && l.closed:
			// its line stood behind the one that closed the level
			l.refuse(r, &Rejected{"closed"})
		default:
			r.stage = waits
		}
	}
}

// ask sends a question that is of no request, and waits for its answer, whose last line begins so. A question that
// changes the level is noted once it is answered. While no level is there it is noted at once, for the next level.
func (l *Level) ask(ctx context.Context, line, last string, note func()) (string, error) {
	q := &question{last: last, note: note, told: make(chan error, 1)}
	l.mu.Lock()
	switch {
	case l.pipe != nil:
		l.pipe.send(line+"\n", q)
	case note != nil:
		note()
		q.told <- nil
	default:
		q.told <- ErrDown
	}
	l.mu.Unlock()
	select {
	case err := <-q.told:
		return string(q.text), err
	case <-ctx.Done():
		return "", ctx.Err()
	}
}

// errBroken is the error of a level that says what no level says.
var errBroken = errors.New("it does not keep to the protocol")

// hear notes one line of the level: what happened to one that waited, or a line of the answer to the oldest question.
func (l *Level) hear(p *pipe, line string) error {
	word, rest, _ := strings.Cut(line, " ")
	number, said, _ := strings.Cut(rest, " ")
	switch {
	case word == "strike":
		return nil
	case word == "dispatch":
		n, err := strconv.Atoi(number)
		if err != nil || n < 0 || n >= len(l.there) || l.there[n] == nil || l.there[n].stage != waits {
			return errBroken
		}
		l.run(l.there[n])
		return nil
	case len(p.asked) == 0:
		return errBroken
	}
	// a question that has no whole answer yet stays open
	q := p.asked[0]
	if q.request != nil {
		if err := l.settle(q, word, number, said); err != nil {
			return err
		}
	} else if q.text = append(append(q.text, line...), '\n'); word == "fault" {
		return errBroken
	} else if !strings.HasPrefix(line, q.last) {
		return nil
	} else {
		if q.note != nil {
			q.note()
		}
		q.told <- nil
	}
	l.pause, p.asked = leastPause, p.asked[1:]
	return nil
}

// settle notes the answer to a question of one request.
func (l *Level) settle(q *question, word, number, said string) error {
	r := q.request
	reason, _, _ := strings.Cut(said, " ")
	switch isFault := word == "fault"; {
	case !isFault && (word != q.word || number != strconv.Itoa(r.number)):
		return errBroken
	case q.word == "finish" && (said == "" || isFault && strings.HasSuffix(said, " is not there")):
		// a fault is of a request that was tried in, and did not fit
		l.drop(r)
	case q.word == "try":
		// who does not fit any more runs on, and owes no finish
		r.known = said == "execute"
	case q.word == "cancel" && said == "cancelled" && r.stage == waits:
		l.refuse(r, r.leaves)
	case q.word == "cancel" && (isFault || said == "execute" && r.stage >= runs):
		// it came too late
	case q.word != "arrive" || r.stage >= runs:
		return errBroken
	case isFault:
		l.refuse(r, &Fault{said})
	case said == "execute":
		l.run(r)
	case reason == "queued":
		r.stage = waits
	default:
		l.refuse(r, &Rejected{reason})
	}
	return nil
}

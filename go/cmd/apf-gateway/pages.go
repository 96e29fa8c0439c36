package main

import (
	"bufio"
	"context"
	"encoding/json"
	"errors"
	"fmt"
	"math"
	"net/http"
	"os"
	"sort"
	"strconv"
	"strings"
	"sync"
	"time"

	"burtxeltz/apf"
)

// entry is the line of one request on standard output. Wait and run are in seconds.
type entry struct {
	Time     time.Time `json:"time"`
	Flow     string    `json:"flow"`
	Decision string    `json:"decision"`
	Wait     float64   `json:"wait"`
	Run      float64   `json:"run"`
	Status   int       `json:"status"`
	Bytes    int64     `json:"bytes"`
}

// bounds are the upper bounds of the histogram's buckets in seconds, as kube-apiserver has them.
var bounds = [...]float64{0, 0.005, 0.02, 0.05, 0.1, 0.2, 0.5, 1, 2, 5, 10, 15, 30, math.Inf(1)}

// journal writes the lines, and counts for the metrics. Where the output's reader is far behind, lines are left out.
type journal struct {
	lines chan *entry   // nil where no line is asked for, or none any more
	done  chan struct{} // closed when all are written
	mu    sync.Mutex
	codes map[int]int64
	waits map[bool]*[len(bounds)]int64 // by whether they ended with seats: how many were up to each bound
	sums  map[bool]float64
}

func newJournal(quiet bool) *journal {
	j := &journal{codes: map[int]int64{}, sums: map[bool]float64{}}
	j.waits = map[bool]*[len(bounds)]int64{false: {}, true: {}}
	if !quiet {
		j.lines, j.done = make(chan *entry, 10000), make(chan struct{})
		go j.write(j.lines)
	}
	return j
}

// write writes what came, all that is there at once.
func (j *journal) write(lines <-chan *entry) {
	defer close(j.done)
	out := bufio.NewWriterSize(os.Stdout, 64<<10)
	for it := range lines {
		if json.NewEncoder(out).Encode(it); len(lines) == 0 {
			out.Flush()
		}
	}
}

// note counts a request that is over, and hands its line on.
func (j *journal) note(it *entry) {
	j.mu.Lock()
	defer j.mu.Unlock()
	j.codes[it.Status]++
	select {
	case j.lines <- it:
	default:
	}
}

// waited counts the wait of a request that asked for its seats.
func (j *journal) waited(execute bool, seconds float64) {
	j.mu.Lock()
	defer j.mu.Unlock()
	j.sums[execute] += seconds
	for i := sort.SearchFloat64s(bounds[:], seconds); i < len(bounds); i++ {
		j.waits[execute][i]++
	}
}

// close writes what is left, for a second at most.
func (j *journal) close() {
	j.mu.Lock()
	defer j.mu.Unlock()
	if j.lines != nil {
		close(j.lines)
		j.lines = nil
		select {
		case <-j.done:
		case <-time.After(time.Second):
		}
	}
}

// metrics are the gateway's own, in the text format of Prometheus.
func (j *journal) metrics(level string, restarts int) string {
	j.mu.Lock()
	defer j.mu.Unlock()
	var text strings.Builder
	head := "# HELP %[1]s %[3]s\n# TYPE %[1]s %[2]s\n"
	name := "apiserver_flowcontrol_request_wait_duration_seconds"
	fmt.Fprintf(&text, head, name, "histogram", "How long requests waited for their seats.")
	for execute, counts := range j.waits {
		labels := fmt.Sprintf(`priority_level=%q,flow_schema=%q,execute="%t"`, level, level, execute)
		for i, bound := range bounds {
			fmt.Fprintf(&text, "%s_bucket{%s,le=\"%v\"} %d\n", name, labels, bound, counts[i])
		}
		count := counts[len(bounds)-1]
		fmt.Fprintf(&text, "%s_sum{%s} %g\n%s_count{%s} %d\n", name, labels, j.sums[execute], name, labels, count)
	}
	fmt.Fprintf(&text, head, "apf_gateway_requests_total", "counter", "Requests by the status of their answer.")
	for code, count := range j.codes {
		fmt.Fprintf(&text, "apf_gateway_requests_total{code=\"%d\"} %d\n", code, count)
	}
	fmt.Fprintf(&text, head, "apf_gateway_level_restarts_total", "counter", "How many times the level was started again.")
	fmt.Fprintf(&text, "apf_gateway_level_restarts_total %d\n", restarts)
	return text.String()
}

// pages are those of the admin address. The level has a second to answer.
func (g *gateway) pages() http.Handler {
	pages := http.NewServeMux()
	page := func(path string, ask func(context.Context, *http.Request) (string, error)) {
		pages.HandleFunc(path, func(w http.ResponseWriter, r *http.Request) {
			ctx, cancel := context.WithTimeout(r.Context(), time.Second)
			defer cancel()
			w.Header().Set("Content-Type", "text/plain; version=0.0.4")
			text, err := ask(ctx, r)
			var fault *apf.Fault
			switch {
			case errors.As(err, &fault):
				http.Error(w, fault.Text, http.StatusBadRequest)
			case err != nil:
				http.Error(w, err.Error(), http.StatusServiceUnavailable)
			default:
				fmt.Fprint(w, text)
			}
		})
	}
	page("/healthz", func(context.Context, *http.Request) (string, error) { return "ok\n", nil })
	page("/readyz", func(ctx context.Context, r *http.Request) (string, error) {
		if g.stopping.Load() {
			return "", errors.New("stopping")
		}
		_, err := g.level.Book(ctx)
		return "ok\n", err
	})
	page("/metrics", func(ctx context.Context, r *http.Request) (string, error) {
		// while the level is away its metrics are left out
		text, _ := g.level.Metrics(ctx)
		return strings.TrimSuffix(text, "# EOF\n") + g.journal.metrics(g.schema, g.level.Restarts()) + "# EOF\n", nil
	})
	page("/debug/queues", func(ctx context.Context, r *http.Request) (text string, err error) {
		queues, err := g.level.Queues(ctx)
		for _, q := range queues {
			text += fmt.Sprintf("queue %d waiting %d entered %d service %d\n", q.Number, q.Waiting, q.Entered, q.Service)
		}
		return text, err
	})
	page("/limit", func(ctx context.Context, r *http.Request) (string, error) {
		// a page in a browser of this machine is no operator
		if r.Method != http.MethodPost || r.Header.Get("Origin") != "" {
			return "", &apf.Fault{Text: "the limit is set by POST /limit?seats=N, and not from a browser"}
		}
		// what is no number is 0, which is no limit
		seats, _ := strconv.Atoi(r.URL.Query().Get("seats"))
		was, err := g.level.SetLimit(ctx, seats)
		return fmt.Sprintf("limit %d was %d\n", seats, was), err
	})
	return pages
}

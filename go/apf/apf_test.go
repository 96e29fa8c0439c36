package apf

import (
	"context"
	"errors"
	"fmt"
	"net/http"
	"net/http/httptest"
	"os"
	"path/filepath"
	"reflect"
	"strings"
	"sync"
	"syscall"
	"testing"
	"time"
)

// most is longer than anything here takes.
const most = 20 * time.Second

// opened is a level of this many slots, which is ended with the test.
func opened(t *testing.T, options Options) *Level {
	t.Helper()
	if options.Config == "" {
		options.Config = "testdata/level.json"
	}
	if options.Slots == 0 {
		options.Slots = 20
	}
	options.Log = func(line string) { t.Log(line) }
	l, err := Start(context.Background(), options)
	if err != nil {
		t.Fatal(err)
	}
	t.Cleanup(func() {
		ctx, cancel := context.WithTimeout(context.Background(), time.Second)
		defer cancel()
		l.Shutdown(ctx)
	})
	return l
}

// each runs a test on the small level, and on the program where APF_PROGRAM names it.
func each(t *testing.T, test func(t *testing.T, program string)) {
	t.Run("fake", func(t *testing.T) { test(t, "fake") })
	t.Run("apf", func(t *testing.T) {
		if os.Getenv("APF_PROGRAM") == "" {
			t.Skip("APF_PROGRAM names no program")
		}
		test(t, "apf")
	})
}

// until waits for what holds soon.
func until(t *testing.T, what string, holds func() bool) {
	t.Helper()
	for end := time.Now().Add(most); !holds(); time.Sleep(time.Millisecond) {
		if time.Now().After(end) {
			t.Fatalf("never: %s", what)
		}
	}
}

// acquired is a seat that is there at once or soon.
func acquired(t *testing.T, l *Level, flow string) *Seat {
	t.Helper()
	ctx, cancel := context.WithTimeout(context.Background(), most)
	defer cancel()
	seat, err := l.Acquire(ctx, Request{Distinguisher: flow})
	if err != nil {
		t.Fatalf("%s: %v", flow, err)
	}
	return seat
}

// asking asks for a seat in a goroutine of its own, once those before it have asked.
func asking(t *testing.T, l *Level, ctx context.Context, flow string) (seat chan *Seat, failed chan error) {
	t.Helper()
	seat, failed = make(chan *Seat, 1), make(chan error, 1)
	before := stages(l)
	go func() {
		s, err := l.Acquire(ctx, Request{Distinguisher: flow})
		if err != nil {
			failed <- err
			return
		}
		seat <- s
	}()
	until(t, flow+" waits", func() bool { return stages(l)[waits] > before[waits] })
	return seat, failed
}

// stages counts the requests that are there by how far they are.
func stages(l *Level) (count [4]int) {
	l.mu.Lock()
	defer l.mu.Unlock()
	for _, r := range l.there {
		if r != nil {
			count[r.stage]++
		}
	}
	return count
}

func process(l *Level) int {
	l.mu.Lock()
	defer l.mu.Unlock()
	if l.pipe == nil {
		return 0
	}
	return l.pipe.command.Process.Pid
}

// killed kills the level, and waits until the next one is there.
func killed(t *testing.T, l *Level, signal syscall.Signal) {
	t.Helper()
	before, restarts := process(l), l.Restarts()
	if before == 0 {
		t.Fatal("no level is there")
	}
	syscall.Kill(before, signal)
	until(t, "another level", func() bool { return l.Restarts() > restarts })
}

// everyNumber fails where a number was lost: as many requests as there are slots must fit, and all of them end.
func everyNumber(t *testing.T, l *Level) {
	t.Helper()
	ctx, cancel := context.WithCancel(context.Background())
	var all sync.WaitGroup
	for number := range l.there {
		all.Add(1)
		go func(flow string) {
			defer all.Done()
			if seat, err := l.Acquire(ctx, Request{Distinguisher: flow}); err == nil {
				defer seat.Release()
				<-ctx.Done()
			}
		}(fmt.Sprint(number))
	}
	until(t, "a request of each number", func() bool { count := stages(l); return count[waits]+count[runs] == len(l.there) })
	cancel()
	all.Wait()
	until(t, "all numbers are free", func() bool { l.mu.Lock(); defer l.mu.Unlock(); return len(l.free) == len(l.there) })
	book, err := l.Book(context.Background())
	if err != nil || book.Seats != 0 || book.Waiting != 0 {
		t.Fatalf("the book at the end: %+v %v", book, err)
	}
}

func TestTurnsAndNumbers(t *testing.T) {
	each(t, func(t *testing.T, program string) {
		l := opened(t, Options{Program: program, Slots: 5})
		var all sync.WaitGroup
		var running, highest int
		var mu sync.Mutex
		for i := 0; i < 200; i++ {
			all.Add(1)
			go func(i int) {
				defer all.Done()
				seat, err := l.Acquire(context.Background(), Request{Distinguisher: fmt.Sprint(i % 7)})
				if err != nil {
					t.Error(err)
					return
				}
				mu.Lock()
				if running++; running > highest {
					highest = running
				}
				mu.Unlock()
				mu.Lock()
				running--
				mu.Unlock()
				seat.Release()
				seat.Release()
			}(i)
		}
		all.Wait()
		everyNumber(t, l)
		book, err := l.Shutdown(context.Background())
		if err != nil || book.Executed < 200 || book.Rejected != 0 || !book.Open {
			t.Fatalf("%+v %v", book, err)
		}
		if highest > 2 {
			t.Fatalf("%d ran at once on 2 seats", highest)
		}
		if _, err := l.Acquire(context.Background(), Request{}); err != ErrShutdown {
			t.Fatalf("after the end: %v", err)
		}
	})
}

func TestCancel(t *testing.T) {
	each(t, func(t *testing.T, program string) {
		l := opened(t, Options{Program: program})
		first, second := acquired(t, l, "a"), acquired(t, l, "b")
		ctx, cancel := context.WithCancel(context.Background())
		_, failed := asking(t, l, ctx, "c")
		cancel()
		if err := <-failed; !errors.Is(err, context.Canceled) {
			t.Fatal(err)
		}
		book, err := l.Book(context.Background())
		if err != nil || book.Cancelled != 1 || book.Seats != 2 || book.Waiting != 0 {
			t.Fatalf("%+v %v", book, err)
		}
		first.Release()
		second.Release()
		everyNumber(t, l)
	})
}

func TestNumbersAreWaitedForWithinTheContext(t *testing.T) {
	l := opened(t, Options{Program: "fake", Slots: 1})
	first := acquired(t, l, "a")
	ctx, cancel := context.WithTimeout(context.Background(), 10*time.Millisecond)
	defer cancel()
	if _, err := l.Acquire(ctx, Request{}); !errors.Is(err, context.DeadlineExceeded) {
		t.Fatal(err)
	}
	first.Release()
	everyNumber(t, l)
}

func TestTheReasonOfARejection(t *testing.T) {
	each(t, func(t *testing.T, program string) {
		l := opened(t, Options{Program: program})
		if first, err := l.CloseLevel(context.Background()); !first || err != nil {
			t.Fatal(first, err)
		}
		if first, err := l.CloseLevel(context.Background()); first || err != nil {
			t.Fatal(first, err)
		}
		_, err := l.Acquire(context.Background(), Request{})
		var rejected *Rejected
		if !errors.As(err, &rejected) || rejected.Reason != "closed" {
			t.Fatal(err)
		}
		_, err = l.Acquire(context.Background(), Request{Distinguisher: strings.Repeat("x", maxLine)})
		var fault *Fault
		if !errors.As(err, &fault) || fault.Text != "line too long" {
			t.Fatal(err)
		}
	})
}

func TestAFaultOfTheProgram(t *testing.T) {
	if os.Getenv("APF_PROGRAM") == "" {
		t.Skip("APF_PROGRAM names no program")
	}
	l := opened(t, Options{Program: "apf", Slots: 3})
	for i := 0; i < 10; i++ {
		_, err := l.Acquire(context.Background(), Request{Width: 20001})
		var fault *Fault
		if !errors.As(err, &fault) || !strings.Contains(fault.Text, "width") {
			t.Fatal(err)
		}
	}
	for _, flow := range []string{"", "\x00", "\xff", "\"}\n", strings.Repeat("\u00e9", 1000), "<&>"} {
		acquired(t, l, flow).Release()
	}
	everyNumber(t, l)
}

func TestLimitAndClosingAreRestored(t *testing.T) {
	each(t, func(t *testing.T, program string) {
		l := opened(t, Options{Program: program})
		if was, err := l.SetLimit(context.Background(), 5); was != 2 || err != nil {
			t.Fatal(was, err)
		}
		killed(t, l, syscall.SIGKILL)
		for i := 0; i < 5; i++ {
			acquired(t, l, "a")
		}
		if _, err := l.CloseLevel(context.Background()); err != nil {
			t.Fatal(err)
		}
		killed(t, l, syscall.SIGKILL)
		_, err := l.Acquire(context.Background(), Request{})
		var rejected *Rejected
		if !errors.As(err, &rejected) || rejected.Reason != "closed" {
			t.Fatal(err)
		}
		until(t, "those that run were tried in", func() bool {
			book, err := l.Book(context.Background())
			return err == nil && book.Seats == 5 && !book.Open
		})
		if was, err := l.SetLimit(context.Background(), 3); was != 5 || err != nil {
			t.Fatal(was, err)
		}
		if _, err := l.SetLimit(context.Background(), 0); err == nil {
			t.Fatal("a limit of 0")
		}
	})
}

func TestTheOrderOnANewLevel(t *testing.T) {
	note := filepath.Join(t.TempDir(), "note")
	t.Setenv("FAKE_NOTE", note)
	l := opened(t, Options{Program: "fake"})
	running := []*Seat{acquired(t, l, "a"), acquired(t, l, "b")}
	var seats []chan *Seat
	for i := 0; i < 8; i++ {
		seat, _ := asking(t, l, context.Background(), fmt.Sprint(i))
		seats = append(seats, seat)
	}
	killed(t, l, syscall.SIGKILL)
	until(t, "all are asked again", func() bool { return strings.Count(read(t, note), "arrive") == 18 })
	var words []string
	_, text, _ := strings.Cut(strings.TrimPrefix(read(t, note), "opened\n"), "opened\n")
	for _, line := range strings.Split(strings.TrimSpace(text), "\n") {
		word, _, _ := strings.Cut(line, " ")
		_, flow, _ := strings.Cut(line, `"distinguisher":"`)
		words = append(words, word+" "+flow[:1])
	}
	want := []string{"try a", "try b"}
	for i := range seats {
		want = append(want, fmt.Sprint("arrive ", i))
	}
	if !reflect.DeepEqual(words, want) {
		t.Fatalf("%q", words)
	}
	// and they are served in that order
	for _, seat := range running {
		seat.Release()
	}
	for i, seat := range seats {
		select {
		case s := <-seat:
			s.Release()
		case <-time.After(most):
			t.Fatalf("%d was lost", i)
		}
	}
	everyNumber(t, l)
}

func read(t *testing.T, path string) string {
	text, err := os.ReadFile(path)
	if err != nil {
		t.Fatal(err)
	}
	return string(text)
}

// What a level did that died in the middle: it dispatched one whose cancel it did not answer, said half a line, nonsense, or
// an answer to no question. Each time nobody is lost, and nobody runs who was not let in.
func TestALevelThatDiesInTheMiddle(t *testing.T) {
	for _, script := range []string{
		"arrive 0=execute;arrive 1=queued 0;cancel=!dispatch N queue 0|",
		"arrive 0=execute;arrive 1=queued 0;cancel=!cancel N",
		"arrive 0=execute;arrive 1=!nonsense|",
		"arrive 0=execute;arrive 1=!arrive 7 execute|",
		"arrive 0=execute;arrive 1=!dispatch 1 queue 0|",
		"arrive 0=execute;arrive 1=!dispatch 99999 queue 0|",
		"arrive 0=execute;arrive 1=!arrive 1 queued 0|finish 5|",
		"arrive 0=execute;arrive 1=!",
		"arrive 0=execute;arrive 1=queued 0;finish=!",
	} {
		t.Run(script, func(t *testing.T) {
			t.Setenv("FAKE_NOTE", filepath.Join(t.TempDir(), "note"))
			t.Setenv("FAKE_FIRST", script)
			l := opened(t, Options{Program: "fake", Slots: 4})
			first := acquired(t, l, "a")
			ctx, cancel := context.WithCancel(context.Background())
			seat, failed := make(chan *Seat, 1), make(chan error, 1)
			go func() {
				if s, err := l.Acquire(ctx, Request{Distinguisher: "b"}); err == nil {
					seat <- s
				} else {
					failed <- err
				}
			}()
			until(t, "b is there", func() bool { return l.Restarts() > 0 || stages(l)[waits]+stages(l)[runs] == 2 })
			switch {
			case strings.Contains(script, "cancel"):
				cancel()
			case strings.Contains(script, "finish=!"):
				first.Release()
			}
			until(t, "a new level", func() bool { return l.Restarts() == 1 })
			select {
			case s := <-seat:
				s.Release()
			case err := <-failed:
				if !errors.Is(err, context.Canceled) {
					t.Fatal(err)
				}
			case <-time.After(most):
				t.Fatal("b was lost")
			}
			cancel()
			first.Release()
			everyNumber(t, l)
		})
	}
}

func TestKilledUnderLoad(t *testing.T) {
	each(t, func(t *testing.T, program string) {
		l := opened(t, Options{Program: program, Slots: 60})
		stop := make(chan struct{})
		var all sync.WaitGroup
		for i := 0; i < 50; i++ {
			all.Add(1)
			go func(i int) {
				defer all.Done()
				for {
					select {
					case <-stop:
						return
					default:
					}
					ctx, cancel := context.WithTimeout(context.Background(), most)
					if i%2 == 0 {
						ctx, cancel = context.WithTimeout(context.Background(), time.Duration(i)*time.Millisecond/5)
					}
					seat, err := l.Acquire(ctx, Request{Distinguisher: fmt.Sprint(i), Width: 1 + i%3})
					// who is refused at once does not keep a processor busy
					time.Sleep(time.Millisecond)
					if err == nil {
						seat.Release()
					}
					cancel()
				}
			}(i)
		}
		for i := 0; i < 20; i++ {
			killed(t, l, syscall.SIGKILL)
			time.Sleep(10 * time.Millisecond)
		}
		close(stop)
		all.Wait()
		everyNumber(t, l)
	})
}

func TestAStoppedLevelCountsAsDead(t *testing.T) {
	each(t, func(t *testing.T, program string) {
		t.Parallel()
		// a machine that is slow answers within this much
		const patience = 2 * time.Second
		l := opened(t, Options{Program: program, Patience: patience})
		running := acquired(t, l, "a")
		pid := process(l)
		syscall.Kill(pid, syscall.SIGSTOP)
		// nobody asks, so nothing is late
		time.Sleep(patience + patience/2)
		if process(l) != pid {
			t.Fatal("a level that nobody asked counts as dead")
		}
		acquired(t, l, "b").Release()
		running.Release()
		if l.Restarts() != 1 {
			t.Fatal(l.Restarts())
		}
		everyNumber(t, l)
	})
}

func TestThePlainLimitWhileTheLevelIsAway(t *testing.T) {
	folder := t.TempDir()
	program := filepath.Join(folder, "fake")
	self, _ := os.Executable()
	if err := os.Symlink(self, program); err != nil {
		t.Fatal(err)
	}
	l := opened(t, Options{Program: program})
	first := acquired(t, l, "a")
	os.Remove(program)
	syscall.Kill(process(l), syscall.SIGKILL)
	until(t, "no level", func() bool { return process(l) == 0 })
	second := acquired(t, l, "b")
	_, err := l.Acquire(context.Background(), Request{Distinguisher: "c"})
	var rejected *Rejected
	if !errors.As(err, &rejected) || rejected.Reason != "concurrency-limit" {
		t.Fatal(err)
	}
	if _, err := l.Book(context.Background()); err != ErrDown {
		t.Fatal(err)
	}
	if was, err := l.SetLimit(context.Background(), 3); was != 2 || err != nil {
		t.Fatal(was, err)
	}
	third := acquired(t, l, "c")
	third.Release()
	os.Symlink(self, program)
	until(t, "a level", func() bool { return process(l) != 0 })
	book, err := l.Book(context.Background())
	if err != nil || book.Seats != 2 || book.Executed != 2 {
		t.Fatalf("%+v %v", book, err)
	}
	first.Release()
	second.Release()
	everyNumber(t, l)
}

func TestALevelThatDiesAgainAndAgainIsStartedLessAndLessOften(t *testing.T) {
	t.Setenv("FAKE_DIES", "1")
	began := time.Now()
	l := opened(t, Options{Program: "fake"})
	until(t, "five restarts", func() bool { return l.Restarts() >= 5 })
	if took, least := time.Since(began), (10+20+40+80+160)*time.Millisecond; took < least {
		t.Fatalf("five restarts within %v, and the pauses alone are %v", took, least)
	}
}

func TestShutdownWaitsForThoseThatRun(t *testing.T) {
	each(t, func(t *testing.T, program string) {
		l := opened(t, Options{Program: program})
		running := acquired(t, l, "a")
		acquired(t, l, "b")
		seat, failed := asking(t, l, context.Background(), "c")
		ctx, cancel := context.WithCancel(context.Background())
		defer cancel()
		var book Book
		var err error
		ended := make(chan struct{})
		go func() {
			book, err = l.Shutdown(ctx)
			close(ended)
		}()
		until(t, "nobody is let in", func() bool { return l.ending.Err() != nil })
		running.Release()
		// c gets the seat of a
		select {
		case <-seat:
		case err := <-failed:
			t.Fatal(err)
		case <-ended:
			t.Fatal("it does not wait for those that run")
		case <-time.After(most):
			t.Fatal("c was lost")
		}
		// b and c never end
		cancel()
		select {
		case <-ended:
		case <-time.After(most):
			t.Fatal("it does not end")
		}
		if !errors.Is(err, context.Canceled) || book.Executed != 3 || book.Seats != 2 {
			t.Fatalf("%+v %v", book, err)
		}
		if _, err := l.Shutdown(ctx); err != ErrShutdown {
			t.Fatal(err)
		}
	})
}

func TestWhatDoesNotStart(t *testing.T) {
	bad := filepath.Join(t.TempDir(), "bad.json")
	os.WriteFile(bad, []byte(`{"limit":0}`), 0o644)
	each(t, func(t *testing.T, program string) {
		_, err := Start(context.Background(), Options{Program: program, Config: bad})
		if err == nil || err.Error() != "apf: config fault 5: bad value of limit" {
			t.Fatal(err)
		}
		if _, err = Start(context.Background(), Options{Program: program, Config: bad + "x"}); !errors.Is(err, os.ErrNotExist) {
			t.Fatal(err)
		}
	})
	for _, program := range []string{"/nowhere/apf", "true"} {
		if _, err := Start(context.Background(), Options{Program: program, Config: bad}); err == nil {
			t.Fatal(program)
		}
	}
	t.Setenv("FAKE_VERSION", "2")
	if _, err := Start(context.Background(), Options{Program: "fake", Config: "testdata/level.json"}); err == nil || !strings.Contains(err.Error(), "version") {
		t.Fatal(err)
	}
}

func TestTheConfigIsReadAgain(t *testing.T) {
	each(t, func(t *testing.T, program string) {
		path := filepath.Join(t.TempDir(), "level.json")
		write := func(text string) { os.WriteFile(path, []byte(text), 0o644) }
		write(`{"limit":2,"queues":8,"handSize":1,"queueLengthLimit":50}`)
		l := opened(t, Options{Program: program, Config: path})
		write(`{"limit":7,"queues":8,"handSize":1,"queueLengthLimit":50}`)
		if was, is, err := l.Reload(context.Background()); was != 2 || is != 7 || err != nil {
			t.Fatal(was, is, err)
		}
		for _, text := range []string{`{"limit":0}`, "{", ""} {
			write(text)
			if _, _, err := l.Reload(context.Background()); err == nil {
				t.Fatal(text)
			}
		}
		if program == "apf" {
			write(`{"limit":3,"queues":9,"handSize":1,"queueLengthLimit":50}`)
			if _, _, err := l.Reload(context.Background()); err == nil || !strings.Contains(err.Error(), "more than the limit") {
				t.Fatal(err)
			}
		}
		// a level that dies is started with what was read first, and with the limit that was set last
		killed(t, l, syscall.SIGKILL)
		if was, err := l.SetLimit(context.Background(), 4); was != 7 || err != nil {
			t.Fatal(was, err)
		}
	})
}

func TestQueuesAndMetrics(t *testing.T) {
	each(t, func(t *testing.T, program string) {
		l := opened(t, Options{Program: program})
		acquired(t, l, "a")
		acquired(t, l, "b")
		ctx, cancel := context.WithCancel(context.Background())
		defer cancel()
		asking(t, l, ctx, "c")
		queues, err := l.Queues(context.Background())
		if err != nil || len(queues) != 1 || queues[0].Waiting != 1 || queues[0].Entered != 1 {
			t.Fatal(queues, err)
		}
		text, err := l.Metrics(context.Background())
		if err != nil || !strings.HasSuffix(text, "\n# EOF\n") || !strings.Contains(text, `apiserver_flowcontrol_current_limit_seats{priority_level="level"} 2`) {
			t.Fatal(text, err)
		}
	})
}

func TestHandler(t *testing.T) {
	l := opened(t, Options{Program: "fake"})
	var seen http.Header
	next := http.HandlerFunc(func(w http.ResponseWriter, r *http.Request) {
		seen = r.Header
		if r.URL.Path == "/panic" {
			panic(http.ErrAbortHandler)
		}
	})
	server := httptest.NewServer(Handler(l, next, ByHeader("X-Remote-User")))
	defer server.Close()
	get := func(path string) int {
		answer, err := http.Get(server.URL + path)
		if err != nil {
			return 0
		}
		answer.Body.Close()
		return answer.StatusCode
	}
	if got := []int{get("/"), get("/panic"), get("/")}; !reflect.DeepEqual(got, []int{200, 0, 200}) || seen == nil {
		t.Fatal(got)
	}
	everyNumber(t, l)
	l.CloseLevel(context.Background())
	answer, err := http.Get(server.URL)
	if err != nil || answer.StatusCode != 429 || answer.Header.Get("Retry-After") != "1" {
		t.Fatal(answer, err)
	}
}

func TestByHeader(t *testing.T) {
	for _, it := range []struct {
		peer, name, user, seats string
		flow                    string
		width                   int
		kept                    bool
	}{
		{"127.0.0.1:5", "X-Remote-User", "alice", "3", "alice", 3, true},
		{"127.0.0.1:5", "X-Remote-User", "", "0", "127.0.0.1", 1, true},
		{"127.0.0.1:5", "X-Remote-User", "alice", "20001", "alice", 1, true},
		{"127.0.0.1:5", "X_Remote_User", "alice", "+2", "127.0.0.1", 1, false},
		{"10.0.0.1:5", "X-Remote-User", "alice", "3", "10.0.0.1", 1, false},
		{"10.0.0.1:5", "X_REMOTE-User", "alice", "3", "10.0.0.1", 1, false},
		{"[::ffff:127.0.0.1]:5", "X-Remote-User", "alice", "2", "alice", 2, true},
		{"[::2]:5", "X-Remote-User", "alice", "2", "::2", 1, false},
	} {
		r := httptest.NewRequest("GET", "/", nil)
		r.RemoteAddr = it.peer
		r.Header[it.name] = []string{it.user}
		r.Header.Set("X-Seats", it.seats)
		r.Header.Set("Connection", "x-remote-user, close, X-Seats")
		asks := ByHeader("X-Remote-User")(r)
		if asks.Distinguisher != it.flow || asks.Width != it.width {
			t.Errorf("%+v: %+v", it, asks)
		}
		if _, kept := r.Header[it.name]; kept != it.kept || strings.Trim(r.Header.Get("Connection"), ", ") != "close" {
			t.Errorf("%+v: %v", it, r.Header)
		}
	}
}

func TestTheEndOfARequest(t *testing.T) {
	for long, want := range map[time.Duration]string{1500 * time.Nanosecond: "1", 1 << 62: "1000000000000"} {
		if got := ran(long); got != want {
			t.Fatal(got)
		}
	}
}

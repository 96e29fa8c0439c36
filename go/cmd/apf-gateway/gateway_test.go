package main

import (
	"context"
	"fmt"
	"io"
	"net/http"
	"net/http/httptest"
	"net/http/httptrace"
	"net/url"
	"os"
	"path/filepath"
	"strings"
	"sync"
	"testing"
	"time"

	"burtxeltz/apf"
)

// most is longer than anything here takes.
const most = 20 * time.Second

// starts starts a backend, with HTTPS or without.
type starts func(http.Handler) *httptest.Server

// over2 is a gateway that speaks HTTP/2, in front of this backend, with a client of one connection. Who asks for a path of
// /leaves has no answer.
func over2(t *testing.T, o *options, start starts, backend http.HandlerFunc) (*gateway, func(method, path string, body io.Reader) (*http.Response, bool)) {
	t.Helper()
	if os.Getenv("APF_PROGRAM") == "" {
		t.Skip("APF_PROGRAM names no program")
	}
	config := filepath.Join(t.TempDir(), "level.json")
	os.WriteFile(config, []byte(`{"limit":2,"queues":8,"handSize":1,"queueLengthLimit":50}`), 0o644)
	level, err := apf.Start(context.Background(), apf.Options{Program: os.Getenv("APF_PROGRAM"), Config: config, Slots: 100})
	if err != nil {
		t.Fatal(err)
	}
	behind := start(backend)
	to, _ := url.Parse(behind.URL)
	o.header, o.patience, o.bodyBuffer, o.quiet = "X-Remote-User", time.Minute, 1<<20, true
	g := newGateway(level, to, nil, o)
	g.proxy.Transport.(*http.Transport).TLSClientConfig = behind.Client().Transport.(*http.Transport).TLSClientConfig
	server := httptest.NewUnstartedServer(g)
	server.EnableHTTP2, server.Config.ConnContext = true, withConnection
	server.StartTLS()
	t.Cleanup(func() {
		server.Close()
		behind.Close()
		ctx, cancel := context.WithTimeout(context.Background(), most)
		defer cancel()
		book, err := level.Shutdown(ctx)
		if err != nil || book.Seats != 0 || book.Waiting != 0 {
			t.Errorf("%+v %v", book, err)
		}
	})
	return g, func(method, path string, body io.Reader) (*http.Response, bool) {
		reused := false
		ctx := httptrace.WithClientTrace(context.Background(), &httptrace.ClientTrace{GotConn: func(info httptrace.GotConnInfo) { reused = info.Reused }})
		r, _ := http.NewRequestWithContext(ctx, method, server.URL+path, body)
		answer, err := server.Client().Do(r)
		if leaves := strings.HasPrefix(path, "/leaves"); (err != nil) != leaves {
			t.Errorf("%s: %v", path, err)
		}
		if err != nil {
			return &http.Response{}, reused
		}
		defer answer.Body.Close()
		io.Copy(io.Discard, answer.Body)
		return answer, reused
	}
}

func TestRequestsOfOneConnection(t *testing.T) {
	_, ask := over2(t, &options{runLimit: time.Minute}, httptest.NewServer, func(w http.ResponseWriter, r *http.Request) {
		body, _ := io.ReadAll(r.Body)
		w.Write(body)
	})
	var all sync.WaitGroup
	for i := 0; i < 20; i++ {
		all.Add(1)
		go func() {
			defer all.Done()
			if answer, _ := ask("POST", "/", strings.NewReader(strings.Repeat("x", 300_000))); answer.StatusCode != 200 || answer.ProtoMajor != 2 {
				t.Error(answer.Status, answer.Proto)
			}
		}()
	}
	all.Wait()
}

func TestClientsThatLeaveInTheMiddleOfABody(t *testing.T) {
	begun, came, release := make(chan struct{}, 3), make(chan string, 3), make(chan struct{})
	var once sync.Once
	free := func() { once.Do(func() { close(release) }) }
	g, ask := over2(t, &options{runLimit: time.Minute}, httptest.NewTLSServer, func(w http.ResponseWriter, r *http.Request) {
		begun <- struct{}{}
		_, err := io.Copy(io.Discard, r.Body)
		came <- fmt.Sprint(r.URL.Path, " ", err)
		<-release
	})
	t.Cleanup(free)
	// two have all seats, and the backend works on what it got
	for _, path := range []string{"/leaves/0", "/leaves/1"} {
		body, client := io.Pipe()
		go func() {
			io.WriteString(client, strings.Repeat("x", 2<<20))
			<-begun
			client.CloseWithError(io.ErrClosedPipe)
		}()
		ask("POST", path, body)
		if got, want := soon(t, came), path+" unexpected EOF"; got != want {
			t.Errorf("%s, and not %s", got, want)
		}
	}
	served := make(chan int, 1)
	go func() {
		answer, _ := ask("GET", "/waits", nil)
		served <- answer.StatusCode
	}()
	select {
	case got := <-came:
		t.Fatal("a third one comes to the backend: ", got)
	case <-time.After(500 * time.Millisecond):
	}
	release <- struct{}{}
	if got, want := soon(t, came), "/waits <nil>"; got != want {
		t.Errorf("%s, and not %s", got, want)
	}
	free()
	if status := soon(t, served); status != 200 {
		t.Error(status)
	}
	// the backend's answers are read, though nobody waits for two of them
	counts(t, g, "200", 3)
}

// soon is what comes from a channel.
func soon[T any](t *testing.T, from <-chan T) (it T) {
	t.Helper()
	select {
	case it = <-from:
	case <-time.After(most):
		t.Fatal("nothing came")
	}
	return it
}

// counts waits until the gateway has counted this many requests with this status.
func counts(t *testing.T, g *gateway, code string, count int) {
	t.Helper()
	want := fmt.Sprintf("apf_gateway_requests_total{code=%q} %d\n", code, count)
	for end := time.Now().Add(most); ; time.Sleep(10 * time.Millisecond) {
		text := g.journal.metrics("level", 0)
		if strings.Contains(text, want) {
			return
		} else if time.Now().After(end) {
			t.Fatal(text)
		}
	}
}

func TestOneRequestThatStallsEndsNoOther(t *testing.T) {
	release := make(chan struct{})
	g, ask := over2(t, &options{runLimit: 2 * time.Second}, httptest.NewServer, func(w http.ResponseWriter, r *http.Request) {
		if r.URL.Path == "/hangs" {
			select {
			case <-release:
			case <-r.Context().Done():
			}
		}
	})
	defer close(release)
	ask("GET", "/", nil)
	stalled, _ := io.Pipe()
	for path, want := range map[string]int{"/upload": http.StatusRequestTimeout, "/hangs": http.StatusGatewayTimeout} {
		var body io.Reader
		if path == "/upload" {
			body = stalled
		}
		if answer, _ := ask("POST", path, body); answer.StatusCode != want {
			t.Errorf("%s: %v", path, answer.Status)
		}
		if answer, reused := ask("GET", "/", nil); answer.StatusCode != 200 || !reused {
			t.Errorf("behind %s: %v, reused %v", path, answer.Status, reused)
		}
	}
	counts(t, g, "408", 1)
}

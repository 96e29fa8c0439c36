package main

import (
	"bytes"
	"context"
	"io"
	"log"
	"net"
	"net/http"
	"net/http/httptrace"
	"net/http/httputil"
	"net/netip"
	"net/url"
	"sync"
	"sync/atomic"
	"time"

	"burtxeltz/apf"
)

// An answer of up to smallAnswer is read whole before it is passed on, and partSize of a longer one at once.
const smallAnswer, partSize = 64 << 10, 32 << 10

// gateway passes on what the level lets run.
type gateway struct {
	*options
	level    *apf.Level
	asks     func(*http.Request) apf.Request
	proxy    httputil.ReverseProxy
	journal  *journal
	stopping atomic.Bool
}

func newGateway(level *apf.Level, backend *url.URL, trusted []netip.Prefix, o *options) *gateway {
	proxy := httputil.NewSingleHostReverseProxy(backend)
	proxy.ErrorLog = log.New(io.Discard, "", 0) // else it has a line for each client that leaves
	proxy.BufferPool = &pool{sync.Pool{New: func() any { return make([]byte, partSize) }}}
	proxy.Transport = &http.Transport{
		// with a dialer of its own it speaks HTTP/1.1: a connection has one request at a time, and is closed with it
		DialContext: (&net.Dialer{Timeout: 10 * time.Second}).DialContext, TLSHandshakeTimeout: 10 * time.Second,
		MaxIdleConnsPerHost: 1000, IdleConnTimeout: time.Minute, DisableCompression: true,
	}
	asks := apf.ByHeader(o.header, trusted...)
	return &gateway{options: o, level: level, asks: asks, proxy: *proxy, journal: newJournal(o.quiet)}
}

// ServeHTTP serves one request: its body is read, it waits for its seats, and it is passed on.
func (g *gateway) ServeHTTP(writer http.ResponseWriter, r *http.Request) {
	ask := g.asks(r)
	said := &entry{Time: time.Now(), Flow: ask.Distinguisher, Decision: "none"}
	defer g.journal.note(said)
	w := &counted{ResponseWriter: writer, Flusher: writer.(http.Flusher), said: said}
	w.Hijacker, _ = writer.(http.Hijacker)
	if status := g.readBody(r); status != 0 {
		refuse(w, r, "the body did not come", status)
		return
	}
	ctx, cancel := context.WithTimeout(r.Context(), g.patience)
	asked := time.Now()
	seat, err := g.level.Acquire(ctx, ask)
	cancel()
	if said.Wait = time.Since(asked).Seconds(); err == nil && r.Context().Err() != nil {
		seat.Release() // its client is gone, and the backend knows nothing of it
		err = r.Context().Err()
	}
	g.journal.waited(err == nil, said.Wait)
	if err != nil {
		said.Decision = apf.Refuse(w, err)
		return
	}
	said.Decision = "execute"
	it := &run{gateway: g, seat: seat, said: said, request: r, began: time.Now()}
	it.ended, it.expired = make(chan struct{}), make(chan struct{})
	// not the client's context; by the key the proxy knows that it may panic to cut an answer off
	it.ctx, it.cancel = context.WithCancel(context.WithValue(context.Background(), http.ServerContextKey, g))
	it.limit = time.AfterFunc(g.runLimit, it.expire)
	defer it.end()
	proxy := g.proxy
	proxy.Transport, proxy.ErrorHandler = it, it.failed
	proxy.ServeHTTP(w, r.WithContext(it.ctx))
}

// readBody reads as much of a body as the buffer takes. It answers a status where it does not come.
func (g *gateway) readBody(r *http.Request) int {
	defer func() { r.Trailer = nil }() // what comes behind a body is not passed on
	r.Header.Del("Expect")
	if r.ContentLength == 0 {
		return 0
	}
	limit := time.AfterFunc(g.runLimit, func() { stop(r) })
	kept := &bytes.Buffer{}
	_, err := io.CopyN(kept, r.Body, g.bodyBuffer)
	switch {
	case !limit.Stop():
		return http.StatusRequestTimeout
	case err == io.EOF:
		r.Body, r.ContentLength, r.TransferEncoding = io.NopCloser(kept), int64(kept.Len()), nil
	case err != nil:
		return http.StatusBadRequest
	default: // the rest of it comes while the request runs
		r.Body = &longBody{io.MultiReader(kept, r.Body), r.Body, nil}
	}
	return 0
}

// longBody is a body that is longer than the buffer, and goes to the backend while it comes.
type longBody struct {
	io.Reader
	io.Closer
	backend net.Conn // the connection that it goes to
}

// Read reads it. Where its rest can't come, the backend sees the end of what is sent to it. It may still work, so its
// connection stays until it has answered or has closed it, or until the run limit.
func (b *longBody) Read(part []byte) (int, error) {
	n, err := b.Reader.Read(part)
	if err != nil && err != io.EOF {
		b.backend.(interface{ CloseWrite() error }).CloseWrite()
		// the transport closes it then, and what is closed takes no deadline
		for ; b.backend.SetWriteDeadline(time.Time{}) == nil; time.Sleep(20 * time.Millisecond) {
		}
	}
	return n, err
}

// run is one request that has its seats. Its context ends by the run limit, and not with the client.
type run struct {
	gateway *gateway
	seat    *apf.Seat
	said    *entry
	request *http.Request
	ctx     context.Context
	cancel  context.CancelFunc
	began   time.Time
	once    sync.Once
	// ended is closed when its seats came back, and expired when limit, the run limit's timer, has ended it.
	ended, expired chan struct{}
	limit          *time.Timer
	// upgraded is a backend that switched protocols, and refused says that the client has an answer of the gateway's own.
	upgraded io.Closer
	refused  bool
}

// over gives the seats back.
func (it *run) over() {
	it.once.Do(func() {
		it.said.Run = time.Since(it.began).Seconds()
		it.seat.Release()
		close(it.ended)
	})
}

// expire ends a request at the run limit: its connection to the backend is closed, and so is a client that stalls.
func (it *run) expire() {
	it.cancel()
	stop(it.request)
	close(it.expired)
}

// RoundTrip passes the request on. The backend's answer is read to its end, and then the seats come back.
func (it *run) RoundTrip(r *http.Request) (*http.Response, error) {
	if body, isLong := r.Body.(*longBody); isLong {
		trace := &httptrace.ClientTrace{GotConn: func(info httptrace.GotConnInfo) { body.backend = info.Conn }}
		r = r.WithContext(httptrace.WithClientTrace(r.Context(), trace))
	}
	response, err := it.gateway.proxy.Transport.RoundTrip(r)
	switch {
	case err != nil: // failed gives the seats back
	case response.StatusCode == http.StatusSwitchingProtocols: // from now on it is no request any more
		if !it.limit.Stop() {
			response.Body.Close()
			return nil, context.DeadlineExceeded
		}
		it.upgraded, it.said.Status = response.Body, response.StatusCode
		it.over()
	case response.ContentLength >= 0 && response.ContentLength <= smallAnswer || response.Body == http.NoBody:
		var text []byte
		text, err = io.ReadAll(response.Body)
		response.Body.Close()
		it.over()
		response.Body = io.NopCloser(bytes.NewReader(text))
	default:
		response = it.passOn(response)
	}
	return response, err
}

// passOn reads an answer to its end, and keeps some parts for a slow client. Once the client is gone it drops the rest.
func (it *run) passOn(from *http.Response) *http.Response {
	// a copy: at the end of its body the first one gets the trailers
	to, parts := *from, make(chan []byte, it.gateway.bodyBuffer/partSize)
	reader, writer := io.Pipe()
	to.Body, to.Trailer = reader, from.Trailer.Clone()
	var err error
	go func() {
		defer close(parts)
		for err == nil {
			part, n := make([]byte, partSize), 0
			if n, err = from.Body.Read(part); err != nil {
				from.Body.Close()
				it.over()
			}
			select {
			case parts <- part[:n]:
			case <-it.ctx.Done():
			}
		}
	}()
	go func() {
		for part := range parts {
			writer.Write(part) // which does nothing once the reader is closed
		}
		to.Trailer = from.Trailer
		writer.CloseWithError(err)
	}()
	return &to
}

// failed answers a request that the backend did not answer.
func (it *run) failed(w http.ResponseWriter, _ *http.Request, _ error) {
	it.over()
	if it.refused = true; it.ctx.Err() != nil {
		refuse(w, it.request, "the backend did not answer in time", http.StatusGatewayTimeout)
	} else {
		http.Error(w, "the backend can't be reached, or broke off", http.StatusBadGateway)
	}
}

// end is called when the answer is passed on, or the client has left. The backend is read to its end, whoever left.
func (it *run) end() {
	<-it.ended
	if it.upgraded != nil {
		it.upgraded.Close()
	} else if !it.limit.Stop() {
		if <-it.expired; !it.refused {
			panic(http.ErrAbortHandler) // the answer is not whole, and the connection is of no use any more
		}
	}
}

// pool keeps the buffers that answers pass through: Get takes one, and Put gives it back.
type pool struct{ sync.Pool }

func (p *pool) Get() []byte     { return p.Pool.Get().([]byte) }
func (p *pool) Put(part []byte) { p.Pool.Put(part) }

// connection is the key of a client's connection in the contexts of its requests.
type connection struct{}

func withConnection(ctx context.Context, it net.Conn) context.Context {
	return context.WithValue(ctx, connection{}, it)
}

// stop ends the reading of a request, and leaves a second to write what is there. A connection of HTTP/2 has other
// requests too, so it is never ended for one of them: its stream is ended later by the server's own limit.
func stop(r *http.Request) {
	if r.ProtoMajor >= 2 {
		r.Body.Close()
		return
	}
	it := r.Context().Value(connection{}).(net.Conn)
	it.SetReadDeadline(time.Unix(1, 0))
	it.SetWriteDeadline(time.Now().Add(time.Second))
}

// refuse answers a request whose connection is of no use any more.
func refuse(w http.ResponseWriter, r *http.Request, text string, status int) {
	if r.ProtoMajor < 2 {
		w.Header().Set("Connection", "close")
	}
	http.Error(w, text, status)
}

// counted notes what is written to a client. The server's own writer flushes, and gives the connection to an upgrade.
type counted struct {
	http.ResponseWriter
	http.Flusher
	http.Hijacker
	said *entry
}

// WriteHeader notes the status.
func (w *counted) WriteHeader(status int) {
	if w.said.Status == 0 && status >= 200 {
		w.said.Status = status
	}
	w.ResponseWriter.WriteHeader(status)
}

// Write counts the bytes.
func (w *counted) Write(part []byte) (int, error) {
	n, err := w.ResponseWriter.Write(part)
	w.said.Bytes += int64(n)
	return n, err
}

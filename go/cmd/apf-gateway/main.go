// Apf-gateway is a reverse proxy with a priority level in front of one backend. Each request asks the level for its
// seats and waits for its turn, so that one noisy client can't starve the others. The program apf decides, as a process
// of the gateway. docs/SERVE.md says what each option does.
package main

import (
	"context"
	"crypto/tls"
	"errors"
	"flag"
	"fmt"
	"io"
	"log"
	"net"
	"net/http"
	"net/netip"
	"net/url"
	"os"
	"os/signal"
	"runtime/debug"
	"strconv"
	"strings"
	"syscall"
	"time"

	"burtxeltz/apf"
)

// options are the words of the command line.
type options struct {
	level                                                    apf.Options
	listen, admin, backend, header, schema, trust, cert, key string
	patience, runLimit, drain                                time.Duration
	bodyBuffer                                               int64
	quiet                                                    bool
}

func main() {
	log.SetFlags(0)
	log.SetPrefix("apf-gateway: ")
	// what is in use is little, so collecting it seldom costs little memory
	debug.SetGCPercent(400)
	o := &options{bodyBuffer: 1 << 20}
	flags := flag.NewFlagSet("apf-gateway", flag.ContinueOnError)
	flags.StringVar(&o.level.Config, "config", "", "the level's config `file`")
	flags.StringVar(&o.level.Program, "apf", "apf", "the `program` apf")
	flags.IntVar(&o.level.Slots, "slots", 10000, "how many requests may be there at once, waiting and running")
	flags.StringVar(&o.listen, "listen", "127.0.0.1:8080", "the `address` for clients")
	flags.StringVar(&o.backend, "backend", "", "the `URL` of the backend, such as http://127.0.0.1:9000")
	flags.StringVar(&o.admin, "admin", "", "a second `address`: /metrics, /debug/queues, /healthz, /readyz and /limit")
	flags.StringVar(&o.header, "flow-header", "X-Remote-User", "the `header` that names a request's flow")
	flags.StringVar(&o.schema, "schema", "users", "the schema of all flows, and the level's `name` in its metrics")
	flags.StringVar(&o.trust, "trust", "127.0.0.1", "the `addresses` whose flow header and X-Seats are believed")
	flags.DurationVar(&o.patience, "patience", 15*time.Second, "how long a request may wait for its seats")
	flags.DurationVar(&o.runLimit, "run-limit", time.Minute, "how long a request may run, and its body may take to come")
	flags.Func("body-buffer", "this many `bytes` of a body are read before it asks for seats (1MiB)", o.setBodyBuffer)
	flags.DurationVar(&o.drain, "drain", 30*time.Second, "how long what runs may take to end once the gateway is stopped")
	flags.StringVar(&o.cert, "cert", "", "the `file` of the certificate, for HTTPS and HTTP/2")
	flags.StringVar(&o.key, "key", "", "the `file` of the certificate's key")
	flags.BoolVar(&o.quiet, "quiet", false, "no line for each request on standard output")
	flags.SetOutput(io.Discard)
	err := flags.Parse(os.Args[1:])
	if err == nil && flags.NArg() > 0 {
		err = fmt.Errorf("the word %q is no option", flags.Arg(0))
	}
	switch {
	case errors.Is(err, flag.ErrHelp):
		fmt.Println("usage: apf-gateway --config level.json --listen 127.0.0.1:8080 --backend http://127.0.0.1:9000 [..]")
		flags.SetOutput(os.Stdout)
		flags.PrintDefaults()
	case err != nil:
		log.Print(err)
		os.Exit(2)
	default:
		if err := o.serve(); err != nil {
			log.Fatal(strings.TrimPrefix(err.Error(), "apf: "))
		}
	}
}

func (o *options) setBodyBuffer(text string) (err error) {
	digits := strings.TrimRight(text, "KMiB")
	unit, ok := map[string]int64{"": 1, "B": 1, "KiB": 1 << 10, "MiB": 1 << 20}[text[len(digits):]]
	o.bodyBuffer, err = strconv.ParseInt(digits, 10, 32)
	if o.bodyBuffer *= unit; err != nil || !ok || o.bodyBuffer < 0 {
		return errors.New("bytes are such as 65536, 64KiB or 1MiB")
	}
	return nil
}

// addresses reads addresses and ranges of them, with commas between, such as 10.0.0.0/8,127.0.0.1.
func addresses(text string) (those []netip.Prefix, err error) {
	for _, word := range strings.Split(text, ",") {
		word = strings.TrimSpace(word)
		prefix, err := netip.ParsePrefix(word)
		if address, none := netip.ParseAddr(word); none == nil {
			prefix, err = address.Prefix(address.BitLen())
		}
		// where no word is, it is a range that has no address
		if err != nil && word != "" {
			return nil, fmt.Errorf("--trust: %q is no address and no range of addresses", word)
		}
		those = append(those, prefix)
	}
	return those, nil
}

// serve opens the level, then listens, and serves until a signal ends it.
func (o *options) serve() error {
	backend, err := url.Parse(o.backend)
	if err != nil || (backend.Scheme != "http" && backend.Scheme != "https") || backend.Host == "" {
		return fmt.Errorf("--backend %q is no URL such as http://127.0.0.1:9000", o.backend)
	}
	trusted, err := addresses(o.trust)
	if err != nil {
		return err
	}
	if o.patience <= 0 || o.runLimit <= 0 || o.drain < 0 || o.header == "" {
		return errors.New("--patience and --run-limit are more than 0, --drain is not less, and --flow-header is a name")
	}
	secured := o.cert != "" || o.key != ""
	if _, err := tls.LoadX509KeyPair(o.cert, o.key); err != nil && secured {
		return err
	}
	o.level.Name, o.level.Log = o.schema, func(line string) { log.Print(line) }
	level, err := apf.Start(context.Background(), o.level)
	if err != nil {
		return err
	}
	var admin net.Listener
	listener, err := net.Listen("tcp", o.listen)
	if err == nil && o.admin != "" {
		admin, err = net.Listen("tcp", o.admin)
	}
	if err != nil {
		// the level hears the end of its input
		return err
	}
	g := newGateway(level, backend, trusted, o)
	server := &http.Server{
		Handler: g, ConnContext: withConnection, TLSConfig: &tls.Config{MinVersion: tls.VersionTLS12},
		MaxHeaderBytes: 64 << 10, ReadHeaderTimeout: 10 * time.Second, IdleTimeout: 2 * time.Minute,
		// the body, the wait and the run each have their own limits; this is for what is left of an answer then
		WriteTimeout: 2*o.runLimit + o.patience + 10*time.Second,
	}
	pages := &http.Server{Handler: g.pages(), ReadTimeout: 10 * time.Second, WriteTimeout: 30 * time.Second}
	failed, serve := make(chan error, 2), server.Serve
	if secured {
		serve = func(it net.Listener) error { return server.ServeTLS(it, o.cert, o.key) }
	}
	go func() { failed <- serve(listener) }()
	where := ""
	if admin != nil {
		where = fmt.Sprintf(", admin on %v", admin.Addr())
		go func() { failed <- pages.Serve(admin) }()
	}
	signals := make(chan os.Signal, 8)
	signal.Notify(signals, syscall.SIGTERM, syscall.SIGINT, syscall.SIGHUP)
	// a reader of the output that goes away does not end the gateway
	signal.Notify(make(chan os.Signal, 1), syscall.SIGPIPE)
	log.Printf("listening on %v, backend %v%s", listener.Addr(), o.backend, where)
	for {
		select {
		case err = <-failed:
		case s := <-signals:
			if s == syscall.SIGHUP {
				ctx, cancel := context.WithTimeout(context.Background(), 5*time.Second)
				was, is, err := level.Reload(ctx)
				cancel()
				if err != nil {
					log.Printf("the config was read again and is refused: %v", err)
				} else {
					log.Printf("the config was read again: limit %d was %d", is, was)
				}
				continue
			}
		}
		g.stop(server, pages)
		return err
	}
}

// stop takes no new connection, lets what is there end, and then ends the level.
func (g *gateway) stop(server, pages *http.Server) {
	g.stopping.Store(true)
	log.Printf("stopping: what is there has %v to end", g.drain)
	ctx, cancel := context.WithTimeout(context.Background(), g.drain)
	defer cancel()
	if server.Shutdown(ctx) != nil {
		log.Printf("what did not end in time is cut off")
		server.Close()
	}
	book, err := g.level.Shutdown(ctx)
	pages.Close()
	g.journal.close()
	if err != nil {
		log.Printf("stopped: %v", err)
		return
	}
	log.Printf("stopped: seats %d waiting %d executed %d rejected %d cancelled %d",
		book.Seats, book.Waiting, book.Executed, book.Rejected, book.Cancelled)
}

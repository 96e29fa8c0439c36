package apf

import (
	"bufio"
	"bytes"
	"context"
	"errors"
	"fmt"
	"io"
	"math"
	"os"
	"os/exec"
	"regexp"
	"strconv"
	"strings"
	"sync"
	"syscall"
	"time"
)

// A level that died is started again after 10 ms, and after twice as long each time, until it answers something.
const leastPause, mostPause = 10 * time.Millisecond, 5 * time.Second

// question is a line that the level has not answered yet: one of a request, or one whose answer is a text.
type question struct {
	word    string
	request *request
	// last is how the last line of the text begins, note is called once that is there, and told hears so.
	last string
	text []byte
	note func()
	told chan error
}

// pipe is one process of the level, with what it was asked. The level's lock guards what is not of the reader alone.
type pipe struct {
	command  *exec.Cmd
	in       io.WriteCloser
	out      *os.File
	reader   *bufio.Reader
	patience time.Duration
	limit    int         // what its first line says
	shape    string      // that line without its limit
	asked    []*question // the open questions, the oldest one first
	pending  []byte      // what the writer sends next
	closing  bool        // nothing follows
	wake     *sync.Cond  // tells the writer so
}

// ask sends a line of a request.
func (p *pipe) ask(word string, r *request) {
	line := word + " " + strconv.Itoa(r.number)
	switch word {
	case "arrive", "try":
		line, r.known = line+" "+string(r.object), true
	case "finish":
		line += " " + ran(time.Since(r.since))
	}
	p.send(line+"\n", &question{word: word, request: r})
}

// ran is how the level is told that a request ran this long: in whole microseconds, at most 10^12.
func ran(long time.Duration) string {
	return strconv.FormatInt(int64(math.Min(float64(long.Microseconds()), 1e12)), 10)
}

// send sends a line that asks this.
func (p *pipe) send(line string, q *question) {
	p.asked = append(p.asked, q)
	p.pending = append(p.pending, line...)
	p.wake.Signal()
	if len(p.asked) == 1 {
		p.wait()
	}
}

// wait gives the level its patience for the next line, where it owes one or its end.
func (p *pipe) wait() {
	var end time.Time
	if len(p.asked) > 0 || p.closing {
		end = time.Now().Add(p.patience)
	}
	p.out.SetReadDeadline(end)
}

// write sends what is pending, all that was asked meanwhile at once, until the pipe is closed or breaks.
func (l *Level) write(p *pipe) {
	defer p.in.Close()
	l.mu.Lock()
	defer l.mu.Unlock()
	// where it breaks, the reader sees that the level has ended
	for err := error(nil); err == nil && !(p.closing && len(p.pending) == 0); {
		if len(p.pending) == 0 {
			p.wake.Wait()
			continue
		}
		lines := p.pending
		p.pending = nil
		l.mu.Unlock()
		_, err = p.in.Write(lines)
		l.mu.Lock()
	}
}

// read hears what the level says until its output ends, or its patience.
func (l *Level) read(p *pipe) (err error) {
	for err == nil {
		var line []byte
		// a line without its end says nothing
		if line, err = p.reader.ReadSlice('\n'); err == nil {
			l.mu.Lock()
			err = l.hear(p, string(line[:len(line)-1]))
			p.wait()
			l.mu.Unlock()
		}
	}
	return err
}

// Start opens a level, and waits until its process says so. The context bounds that wait alone: Shutdown ends the level.
func Start(ctx context.Context, options Options) (*Level, error) {
	options.Program, options.Name = or(options.Program, "apf"), or(options.Name, "level")
	options.Slots, options.Patience = or(options.Slots, 10000), or(options.Patience, 5*time.Second)
	config, err := os.ReadFile(options.Config)
	if err != nil {
		return nil, err
	}
	l := &Level{options: options, config: config, done: make(chan struct{}), pause: leastPause}
	l.ending, l.end = context.WithCancel(context.Background())
	l.stopped, l.stop = context.WithCancel(context.Background())
	p, err := l.open(ctx, config)
	if err != nil {
		return nil, err
	}
	l.pipe, l.limit, l.shape = p, p.limit, p.shape
	l.there, l.free = make([]*request, options.Slots), make(chan int, options.Slots)
	for number := range l.there {
		l.free <- number
	}
	go l.keep(p)
	return l, nil
}

// or is the first value, or the other one where that is none.
func or[T comparable](value, other T) T {
	if value == *new(T) {
		return other
	}
	return value
}

// Shutdown lets no request in any more, and waits for those that are there until the context ends. Then it ends the
// level, and answers its last book. Who still waits then has ErrShutdown.
func (l *Level) Shutdown(ctx context.Context) (Book, error) {
	if l.ended.Swap(true) {
		return Book{}, ErrShutdown
	}
	l.end()
	// all are over once their numbers are free
	var late error
	for range l.there {
		select {
		case <-l.free:
		case <-ctx.Done():
			late = ctx.Err()
		}
	}
	last := &question{last: "entered ", told: make(chan error, 1)}
	l.mu.Lock()
	if l.stop(); l.pipe != nil {
		l.pipe.closing = true // the book comes at the end of its input
		l.pipe.send("", last)
	} else {
		l.lose(&pipe{wake: sync.NewCond(&l.mu), asked: []*question{last}}) // as if another one had died
	}
	l.mu.Unlock()
	<-l.done
	if err := <-last.told; err != nil {
		return Book{}, err
	}
	book, err := bookOf(string(last.text))
	if err == nil {
		err = late
	}
	return book, err
}

// Reload reads the config file again. Where only the limit is another one, the level is given it. Another change, or a
// config that the program refuses, is an error, and the level stays as it is. It answers the limit before and after.
func (l *Level) Reload(ctx context.Context) (was, is int, err error) {
	config, err := os.ReadFile(l.options.Config)
	if err != nil {
		return 0, 0, err
	}
	p, err := l.open(ctx, config) // a second process says what the file means
	if err != nil {
		return 0, 0, err
	}
	if p.end(); p.shape != l.shape {
		return 0, 0, errors.New("more than the limit changed in the config, which needs a new start")
	}
	was, err = l.SetLimit(ctx, p.limit)
	return was, p.limit, err
}

// open starts the program, and reads its first line. The process is of a group of its own, so an interrupt of a
// terminal does not reach it. It reads the config from a pipe, so what the file has later does not count.
func (l *Level) open(ctx context.Context, config []byte) (*pipe, error) {
	from, to, err := os.Pipe()
	if err != nil {
		return nil, err
	}
	defer from.Close()
	go func() {
		to.Write(config)
		to.Close()
	}()
	program, slots, said := l.options.Program, l.options.Slots, &bytes.Buffer{}
	p := &pipe{patience: l.options.Patience, wake: sync.NewCond(&l.mu)}
	p.command = exec.Command(program, "serve", "/dev/fd/3", "--slots", strconv.Itoa(slots), "--name", l.options.Name)
	p.command.ExtraFiles, p.command.Stderr = []*os.File{from}, said
	p.command.SysProcAttr = &syscall.SysProcAttr{Setpgid: true}
	out, err := p.command.StdoutPipe()
	if err == nil {
		if p.in, err = p.command.StdinPipe(); err == nil {
			err = p.command.Start()
		}
	}
	if err != nil {
		return nil, err
	}
	p.out, p.reader = out.(*os.File), bufio.NewReaderSize(out, maxLine)
	first, line := make(chan string, 1), ""
	go func() {
		text, _ := p.reader.ReadString('\n')
		first <- text
	}()
	select {
	case line = <-first:
	case <-ctx.Done():
	}
	begins := fmt.Sprintf("serve 1 slots %d limit ", slots)
	if _, err = fmt.Sscanf(line, begins+"%d ", &p.limit); err == nil {
		p.shape = strings.Replace(line, fmt.Sprintf(" limit %d ", p.limit), " ", 1)
		return p, nil
	}
	p.end()
	text := strings.TrimSpace(said.String())
	// the line of the fault, and not what explains it behind; else the last one
	why := or(regexp.MustCompile("(?m)^(apf|error): .*").FindString(text), text[strings.LastIndex("\n"+text, "\n"):])
	switch {
	case ctx.Err() != nil:
		return nil, fmt.Errorf("%s serve said no first line: %w", program, ctx.Err())
	case line == "" && why != "":
		return nil, errors.New(why)
	}
	return nil, fmt.Errorf("%s serve said no first line of a level of version 1: %.100q", program, line)
}

// end kills what is left of the process, and of all that it started, and waits for it.
func (p *pipe) end() {
	syscall.Kill(-p.command.Process.Pid, syscall.SIGKILL)
	p.command.Wait()
}

// keep reads what the level says for ever, and starts it again where it dies, with longer and longer pauses.
func (l *Level) keep(p *pipe) {
	defer close(l.done)
	for {
		go l.write(p)
		why := l.read(p)
		l.mu.Lock()
		l.lose(p)
		l.mu.Unlock()
		if p.end(); why == io.EOF {
			why = errors.New(p.command.ProcessState.String())
		}
		for p = nil; p == nil; {
			select {
			case <-time.After(l.pause):
			case <-l.stopped.Done():
				return
			}
			if l.options.Log != nil {
				l.options.Log(fmt.Sprintf("the level is not there, and is started again: %v", why))
			}
			l.pause = time.Duration(math.Min(float64(2*l.pause), float64(mostPause)))
			ctx, cancel := context.WithTimeout(l.stopped, l.options.Patience)
			p, why = l.open(ctx, l.config)
			cancel()
		}
		l.mu.Lock()
		l.adopt(p)
		l.mu.Unlock()
	}
}

package apf

import (
	"bufio"
	"encoding/json"
	"fmt"
	"io"
	"os"
	"path/filepath"
	"strconv"
	"strings"
	"testing"
)

// TestMain puts a program apf on the search path: the one that APF_PROGRAM names, and else this binary, which is a small
// level then. Examples and tests call it as "apf". The small level is there as "fake" in either case.
func TestMain(m *testing.M) {
	switch filepath.Base(os.Args[0]) {
	case "apf", "fake":
		fake()
		return
	}
	os.Exit(runTests(m))
}

func runTests(m *testing.M) int {
	folder, err := os.MkdirTemp("", "apf-test-")
	if err != nil {
		panic(err)
	}
	defer os.RemoveAll(folder)
	self, err := os.Executable()
	if err != nil {
		panic(err)
	}
	program := os.Getenv("APF_PROGRAM")
	if program == "" {
		program = self
	}
	for name, to := range map[string]string{"apf": program, "fake": self} {
		if err := os.Symlink(to, filepath.Join(folder, name)); err != nil {
			panic(err)
		}
	}
	os.Setenv("PATH", folder+":"+os.Getenv("PATH"))
	return m.Run()
}

// small is a level with one queue. It speaks the protocol, and counts no cost.
type small struct {
	slots, limit, seats           int
	closed                        bool
	stage                         []byte // by number: 0, w or r
	width                         []int
	queue                         []int
	executed, rejected, cancelled int
	entered, dispatched, struck   int
}

// fake runs a small level on standard input and output. FAKE_NOTE names a file to which it writes what it is sent.
// With FAKE_DIES it ends behind its first line. FAKE_FIRST is how it begins where that file is empty: what it says to each word of a line before it dies.
func fake() {
	var config struct{ Limit int }
	text, err := os.ReadFile(os.Args[2])
	if err != nil || json.Unmarshal(text, &config) != nil || config.Limit < 1 {
		fmt.Fprintln(os.Stderr, "apf: config fault 5: bad value of limit\n/dev/fd/3: limit is 0: it must be a whole number from 1 to 10000")
		os.Exit(1)
	}
	slots, _ := strconv.Atoi(os.Args[4])
	l := &small{slots: slots, limit: config.Limit, stage: make([]byte, slots), width: make([]int, slots)}
	note, _ := os.OpenFile(os.Getenv("FAKE_NOTE"), os.O_APPEND|os.O_RDWR|os.O_CREATE, 0o644)
	isFirst := false
	if note != nil {
		size, _ := note.Seek(0, io.SeekEnd)
		isFirst = size == 0
		fmt.Fprintln(note, "opened")
	}
	version := os.Getenv("FAKE_VERSION")
	if version == "" {
		version = "1"
	}
	fmt.Printf("serve %s slots %d limit %d queues 8 hand 1 length 50 queue\n", version, slots, l.limit)
	if os.Getenv("FAKE_DIES") != "" {
		return
	}
	lines := bufio.NewReader(os.Stdin)
	for number := 1; ; number++ {
		line, err := lines.ReadString('\n')
		if err != nil {
			break
		}
		if note != nil {
			note.WriteString(line)
		}
		words := strings.SplitN(strings.TrimSuffix(line, "\n"), " ", 3)
		if script := os.Getenv("FAKE_FIRST"); isFirst && script != "" {
			if !scripted(script, words) {
				return
			}
			continue
		}
		l.obey(words)
	}
	l.book()
}

// scripted answers by a script such as "arrive=execute;cancel=!dispatch N queue 0": behind ! stands what is said at last.
func scripted(script string, words []string) bool {
	for _, rule := range strings.Split(script, ";") {
		word, says, _ := strings.Cut(rule, "=")
		if name, number, isOne := strings.Cut(word, " "); name == words[0] && (!isOne || len(words) > 1 && words[1] == number) {
			if strings.HasPrefix(says, "!") {
				fmt.Print(strings.ReplaceAll(strings.ReplaceAll(says[1:], "N", words[1]), "|", "\n"))
				return false
			}
			fmt.Println(words[0], words[1], says)
			return true
		}
	}
	return true
}

func (l *small) obey(words []string) {
	n := 0
	if len(words) > 1 {
		n, _ = strconv.Atoi(words[1])
	}
	switch words[0] {
	case "arrive", "try":
		var asks struct{ Width int }
		if json.Unmarshal([]byte(words[2]), &asks) != nil {
			fmt.Println("fault 1 bad object")
			return
		}
		if asks.Width < 1 {
			asks.Width = 1
		}
		fits := l.seats == 0 || l.seats+asks.Width <= l.limit
		switch {
		case l.closed:
			l.rejected++
			fmt.Println(words[0], n, "closed")
		case fits && len(l.queue) == 0:
			l.executed++
			l.stage[n], l.width[n] = 'r', asks.Width
			l.seats += asks.Width
			fmt.Println(words[0], n, "execute")
		case words[0] == "try":
			fmt.Println("try", n, "busy")
		default:
			l.entered++
			l.stage[n], l.width[n] = 'w', asks.Width
			l.queue = append(l.queue, n)
			fmt.Println("arrive", n, "queued 0")
		}
	case "finish":
		if l.stage[n] != 'r' {
			fmt.Println("fault 1", n, "is not there")
			return
		}
		l.stage[n] = 0
		l.seats -= l.width[n]
		fmt.Println("finish", n)
	case "cancel":
		switch l.stage[n] {
		case 'w':
			l.cancelled++
			l.struck++
			l.stage[n] = 0
			for i, waits := range l.queue {
				if waits == n {
					l.queue = append(l.queue[:i], l.queue[i+1:]...)
					break
				}
			}
			fmt.Printf("cancel %d cancelled\nstrike %d queue 0\n", n, n)
		case 'r':
			fmt.Println("cancel", n, "execute")
		default:
			fmt.Println("fault 1", n, "is not there")
		}
	case "limit":
		fmt.Println("limit", n, "was", l.limit)
		l.limit = n
	case "close":
		said := "first"
		if l.closed {
			said = "already"
		}
		l.closed = true
		fmt.Println("close", said)
	case "book":
		l.book()
	case "queues":
		fmt.Printf("queue 0 waiting %d entered %d service %d\nend\n", len(l.queue), l.entered, l.dispatched)
	case "metrics":
		fmt.Printf("# HELP a b\napiserver_flowcontrol_current_limit_seats{priority_level=\"level\"} %d\n# EOF\n", l.limit)
	}
	for len(l.queue) > 0 && (l.seats == 0 || l.seats+l.width[l.queue[0]] <= l.limit) {
		n, l.queue = l.queue[0], l.queue[1:]
		l.stage[n] = 'r'
		l.seats += l.width[n]
		l.executed++
		l.dispatched++
		fmt.Println("dispatch", n, "queue 0")
	}
}

func (l *small) book() {
	state := "open"
	if l.closed {
		state = "closed"
	}
	fmt.Printf("level %s seats %d waiting %d\nexecuted %d rejected %d cancelled %d undecided %d\n", state, l.seats, len(l.queue), l.executed, l.rejected, l.cancelled, len(l.queue))
	fmt.Printf("queue-full 0 closed %d concurrency-limit 0\nentered %d dispatched %d struck %d\n", l.rejected, l.entered, l.dispatched, l.struck)
}

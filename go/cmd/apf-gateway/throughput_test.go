package main

import (
	"bufio"
	"fmt"
	"io"
	"net"
	"net/http"
	"net/http/httptest"
	"os"
	"os/exec"
	"path/filepath"
	"regexp"
	"sort"
	"sync"
	"sync/atomic"
	"testing"
	"time"
)

// TestThroughput measures the gateway beside nginx, which proxies to the same backend, with 50 connections that ask again as
// soon as they are answered, in turns. It runs where APF_BENCH is set: it takes half a minute, and needs a quiet machine.
func TestThroughput(t *testing.T) {
	if os.Getenv("APF_BENCH") == "" || os.Getenv("APF_PROGRAM") == "" {
		t.Skip("APF_BENCH and APF_PROGRAM are not set")
	}
	backend := httptest.NewServer(http.HandlerFunc(func(w http.ResponseWriter, r *http.Request) { io.WriteString(w, "hello\n") }))
	defer backend.Close()
	folder := t.TempDir()
	write := func(name, text string) string {
		path := filepath.Join(folder, name)
		if err := os.WriteFile(path, []byte(text), 0o644); err != nil {
			t.Fatal(err)
		}
		return path
	}
	program := filepath.Join(folder, "apf-gateway")
	if text, err := exec.Command("go", "build", "-o", program, ".").CombinedOutput(); err != nil {
		t.Fatalf("%s", text)
	}
	config := write("level.json", `{"limit":49,"queues":128,"handSize":6,"queueLengthLimit":50}`)
	gateway := exec.Command(program, "--apf", os.Getenv("APF_PROGRAM"), "--config", config, "--listen", "127.0.0.1:0", "--backend", backend.URL, "--quiet")
	said, _ := gateway.StderrPipe()
	if err := gateway.Start(); err != nil {
		t.Fatal(err)
	}
	defer gateway.Wait()
	defer gateway.Process.Kill()
	line, _ := bufio.NewReader(said).ReadString('\n')
	found := regexp.MustCompile(`listening on (\S+),`).FindStringSubmatch(line)
	if found == nil {
		t.Fatal(line)
	}
	free, _ := net.Listen("tcp", "127.0.0.1:0")
	here := free.Addr().String()
	free.Close()
	nginx := exec.Command("nginx", "-p", folder, "-e", "stderr", "-c", write("nginx.conf", fmt.Sprintf(`daemon off; pid nginx.pid; worker_processes auto; error_log stderr;
events { worker_connections 1024; }
http { access_log off; client_body_temp_path body; proxy_temp_path proxy; fastcgi_temp_path fastcgi; uwsgi_temp_path uwsgi; scgi_temp_path scgi;
upstream backend { server %s; keepalive 64; }
server { listen %s; keepalive_requests 1000000; location / { proxy_pass http://backend; proxy_http_version 1.1; proxy_set_header Connection ""; } } }
`, backend.Listener.Addr(), here)))
	nginx.Stderr = os.Stderr
	if err := nginx.Start(); err != nil {
		t.Skip(err)
	}
	defer nginx.Wait()
	defer nginx.Process.Signal(os.Interrupt)
	time.Sleep(time.Second)
	rates := map[string][]float64{}
	for round := 0; round < 5; round++ {
		for name, address := range map[string]string{"nginx": here, "apf-gateway": found[1]} {
			rates[name] = append(rates[name], rate(t, "http://"+address, 50, 2*time.Second))
		}
	}
	for _, those := range rates {
		sort.Float64s(those)
	}
	ours, theirs := rates["apf-gateway"][2], rates["nginx"][2]
	t.Logf("requests a second, the median of 5 rounds: apf-gateway %.0f, nginx %.0f, so %.2f of it", ours, theirs, ours/theirs)
	if ours < theirs/2 {
		t.Error("less than half of it")
	}
}

// rate is how many requests a second these connections have answered.
func rate(t *testing.T, url string, connections int, length time.Duration) float64 {
	client := &http.Client{Transport: &http.Transport{MaxIdleConnsPerHost: connections}}
	defer client.CloseIdleConnections()
	var count atomic.Int64
	var all sync.WaitGroup
	end := time.Now().Add(length)
	for i := 0; i < connections; i++ {
		all.Add(1)
		go func(flow string) {
			defer all.Done()
			for time.Now().Before(end) {
				r, _ := http.NewRequest("GET", url, nil)
				r.Header.Set("X-Remote-User", flow)
				answer, err := client.Do(r)
				if err != nil || answer.StatusCode != 200 {
					t.Error(answer, err)
					return
				}
				io.Copy(io.Discard, answer.Body)
				answer.Body.Close()
				count.Add(1)
			}
		}(fmt.Sprint("user ", i%10))
	}
	all.Wait()
	return float64(count.Load()) / length.Seconds()
}

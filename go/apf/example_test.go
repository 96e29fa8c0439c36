package apf_test

import (
	"context"
	"errors"
	"fmt"
	"net/http"
	"net/http/httptest"
	"time"

	"burtxeltz/apf"
)

func ExampleStart() {
	ctx := context.Background()
	level, err := apf.Start(ctx, apf.Options{Program: "apf", Config: "testdata/level.json", Slots: 1000, Name: "users"})
	if err != nil {
		fmt.Println(err)
		return
	}
	seat, err := level.Acquire(ctx, apf.Request{Schema: "users", Distinguisher: "alice", Width: 1})
	if err != nil {
		fmt.Println(err)
		return
	}
	// here the request of alice runs
	seat.Release()
	book, err := level.Shutdown(ctx)
	fmt.Println("executed", book.Executed, "seats", book.Seats, err)
	// Output: executed 1 seats 0 <nil>
}

func ExampleLevel_Acquire() {
	ctx := context.Background()
	level, err := apf.Start(ctx, apf.Options{Config: "testdata/level.json"})
	if err != nil {
		fmt.Println(err)
		return
	}
	defer level.Shutdown(ctx)
	wide, err := level.Acquire(ctx, apf.Request{Distinguisher: "crawler", Width: 2})
	if err != nil {
		fmt.Println(err)
		return
	}
	// both seats are in use, and bob does not wait for ever
	patient, cancel := context.WithTimeout(ctx, 10*time.Millisecond)
	defer cancel()
	_, err = level.Acquire(patient, apf.Request{Distinguisher: "bob"})
	var rejected *apf.Rejected
	switch {
	case errors.As(err, &rejected):
		fmt.Println("bob is rejected:", rejected.Reason)
	case err != nil:
		fmt.Println("bob:", err)
	}
	wide.Release()
	// Output: bob: context deadline exceeded
}

func ExampleHandler() {
	ctx := context.Background()
	level, err := apf.Start(ctx, apf.Options{Config: "testdata/level.json"})
	if err != nil {
		fmt.Println(err)
		return
	}
	hello := http.HandlerFunc(func(w http.ResponseWriter, r *http.Request) { fmt.Fprintln(w, "hello") })
	server := httptest.NewServer(apf.Handler(level, hello, apf.ByHeader("X-Remote-User")))
	defer server.Close()
	answer, err := http.Get(server.URL)
	if err != nil {
		fmt.Println(err)
		return
	}
	answer.Body.Close()
	book, _ := level.Shutdown(ctx)
	fmt.Println(answer.StatusCode, "executed", book.Executed)
	// Output: 200 executed 1
}

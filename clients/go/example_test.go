package epaxos_test

import (
	"context"
	"errors"
	"fmt"
	"log"
	"time"

	"example.org/epaxos"
)

var (
	client *epaxos.Client
	ctx    = context.Background()
)

func ExampleOpen() {
	ctx, cancel := context.WithTimeout(context.Background(), 10*time.Second)
	defer cancel()
	client, err := epaxos.Open(ctx, []string{"10.0.0.1:7000", "10.0.0.2:7000", "10.0.0.3:7000"}, epaxos.Options{})
	if err != nil {
		log.Fatal(err)
	}
	defer client.Close()
	if err := client.Set(ctx, "greeting", "hello", time.Hour); errors.Is(err, epaxos.ErrMaybeDone) {
		log.Print("it may be set, now or later: ", err)
	} else if err != nil {
		log.Fatal("it isn't set, and won't be: ", err)
	}
	fmt.Println(client.Get(ctx, "greeting"))
}

func ExampleClient_Lock() {
	lock, err := client.Lock(ctx, "nightly-report", 10*time.Second)
	if err != nil {
		log.Fatal(err)
	}
	defer lock.Unlock(ctx)
	for step := 0; step < 100 && lock.Held(); step++ {
		// what is written to refuses a token below the greatest one that it has seen
		fmt.Println("write", step, "with token", lock.Token())
	}
}

func ExampleClient_Campaign() {
	leadership, err := client.Campaign(ctx, "scheduler", "10.0.0.7:8080")
	if err != nil {
		log.Fatal(err)
	}
	defer leadership.Resign(ctx)
	fmt.Println("leads in term", leadership.Term())
	<-leadership.Lost()
}

func ExampleClient_Observe() {
	for leader := range client.Observe(ctx, "scheduler") {
		fmt.Println(leader.Value, "leads, term", leader.Term) // term 0: nobody
	}
}

package main

import (
	"bufio"
	"net"
	"testing"
)

// A first test: go test
func TestADepartureIsAnsweredTwice(t *testing.T) {
	listener, err := net.Listen("tcp", "127.0.0.1:0")
	if err != nil {
		t.Fatal(err)
	}
	heard := make(chan string, 2)
	go func() {
		connection, _ := listener.Accept()
		lines := bufio.NewReader(connection)
		for _, answer := range []string{
			"{\"board\":\"\",\"from\":null,\"ok\":\"here\",\"ports\":2}\n",
			"{\"ok\":\"gone\"}\n{\"board\":\"3 1\",\"from\":1,\"ok\":\"here\",\"ports\":2}\n",
		} {
			line, _ := lines.ReadString('\n')
			heard <- line
			connection.Write([]byte(answer))
		}
	}()
	agent, home, err := Join(listener.Addr().String(), "ka")
	if err != nil || home.Ports != 2 || home.Came != nil || home.Board != "" {
		t.Fatal(home, err)
	}
	next, err := agent.Depart(0)
	if err != nil || *next.Came != 1 || next.Board != "3 1" {
		t.Fatal(next, err)
	}
	for _, want := range []string{"{\"do\":\"enter\",\"key\":\"ka\"}\n", "{\"do\":\"depart\",\"port\":0}\n"} {
		if line := <-heard; line != want {
			t.Errorf("heard %q, want %q", line, want)
		}
	}
	agent.Close()
}

package main

import (
	"bufio"
	"encoding/json"
	"errors"
	"net"
	"time"
)

// Refused says that the server refused a command, or is not there any more.
type Refused struct{ Why string }

func (refused Refused) Error() string { return "refused: " + refused.Why }

// ErrOver says that the match has ended. The agent can do nothing more.
var ErrOver = errors.New("the match is over")

// Here is a node as an agent sees it. Came is the port by which the agent came, or nil.
type Here struct {
	Ports int
	Came  *int
	Board string
}

// Agent is one agent of a match. Each call sends a line and waits for its answer.
type Agent struct {
	connection net.Conn
	lines      *bufio.Reader
}

type command struct {
	Do     string  `json:"do"`
	Key    *string `json:"key,omitempty"`
	Expect *string `json:"expect,omitempty"`
	Put    *string `json:"put,omitempty"`
	Port   *int    `json:"port,omitempty"`
}

type answer struct {
	OK    string `json:"ok"`
	No    string `json:"no"`
	Board string `json:"board"`
	From  *int   `json:"from"`
	Ports int    `json:"ports"`
}

const (
	tries        = 20
	firstPause   = 50 * time.Millisecond
	longestPause = 2 * time.Second
)

// the server has no room yet, or the first line came late: the key is not used up
var tryAgain = map[string]bool{"full": true, "late": true, "memory": true}

// Join connects and enters. It tries again if the server has no room yet.
func Join(address, key string) (*Agent, Here, error) {
	pause := firstPause
	for left := tries; ; left-- {
		connection, err := net.Dial("tcp", address)
		if err != nil {
			return nil, Here{}, Refused{err.Error()}
		}
		agent := &Agent{connection, bufio.NewReader(connection)}
		here, err := agent.Enter(key)
		var refused Refused
		if err == nil || left == 0 || !errors.As(err, &refused) || !tryAgain[refused.Why] {
			return agent, here, err
		}
		agent.Close()
		time.Sleep(pause)
		if pause *= 2; pause > longestPause {
			pause = longestPause
		}
	}
}

// Close ends the connection. An agent that is still in the match leaves it.
func (agent *Agent) Close() { agent.connection.Close() }

// Enter enters the match of this key at its home base.
func (agent *Agent) Enter(key string) (Here, error) {
	return here(agent.ask(command{Do: "enter", Key: &key}))
}

// Look looks at the node where the agent is.
func (agent *Agent) Look() (Here, error) { return here(agent.ask(command{Do: "look"})) }

// Write puts a text on the whiteboard if what stands there is what is expected, else it changes nothing. It gives
// whether the text was put, and what stands on the whiteboard now.
func (agent *Agent) Write(expect, put string) (bool, string, error) {
	found, err := agent.ask(command{Do: "write", Expect: &expect, Put: &put})
	if found.OK == "written" {
		return true, put, err
	}
	return false, found.Board, err
}

// Depart leaves by this port, and waits until the agent arrives. If it is destroyed, that is until the match ends.
func (agent *Agent) Depart(port int) (Here, error) {
	if _, err := agent.ask(command{Do: "depart", Port: &port}); err != nil {
		return Here{}, err
	}
	return here(agent.answer())
}

// Accuse says that the link at this port leads to a black hole, or is dark. The agent ends.
func (agent *Agent) Accuse(port int) error {
	_, err := agent.ask(command{Do: "accuse", Port: &port})
	return err
}

// Leave leaves the match.
func (agent *Agent) Leave() error {
	_, err := agent.ask(command{Do: "leave"})
	return err
}

func (agent *Agent) ask(said command) (answer, error) {
	if err := json.NewEncoder(agent.connection).Encode(said); err != nil {
		return answer{}, Refused{err.Error()}
	}
	return agent.answer()
}

func (agent *Agent) answer() (answer, error) {
	line, err := agent.lines.ReadBytes('\n')
	if err != nil {
		return answer{}, Refused{"the server has closed the connection"}
	}
	var found answer
	if err := json.Unmarshal(line, &found); err != nil {
		return found, err
	}
	if found.No != "" {
		return found, Refused{found.No}
	}
	if found.OK == "over" {
		return found, ErrOver
	}
	return found, nil
}

func here(found answer, err error) (Here, error) {
	return Here{found.Ports, found.From, found.Board}, err
}

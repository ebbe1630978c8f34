// Careful searches a ring with two agents that know its number of nodes.
//
//	./careful HOST PORT KEY NODES
//	ARENA_HOST=HOST ARENA_PORT=PORT ARENA_KEY=KEY ./careful NODES
//
// Start it twice, with the keys of both agents. The agent that writes first at the home base explores the side of port
// 0, the other the side of port 1. Each goes out to the next unexplored node of its side and comes back, and writes at
// the home base how many nodes of each side are safe, as "3 1". Once one node is left, that is the black hole.
package main

import (
	"errors"
	"fmt"
	"net"
	"os"
	"strconv"
)

func safeOn(board string) (safe [2]int) {
	fmt.Sscanf(board, "%d %d", &safe[0], &safe[1])
	return safe
}

func boardOf(safe [2]int) string { return fmt.Sprintf("%d %d", safe[0], safe[1]) }

// chooseSide gives the side of this agent, and what stands at the home base then.
func chooseSide(agent *Agent, home Here) (int, string, error) {
	if home.Board != "" {
		return 1, home.Board, nil
	}
	written, board, err := agent.Write("", boardOf([2]int{}))
	if written {
		return 0, board, err
	}
	return 1, board, err
}

// walk goes on in one direction over this many links, at least one.
func walk(agent *Agent, port, links int) (Here, error) {
	here, err := agent.Depart(port)
	for more := 1; more < links && err == nil; more++ {
		here, err = agent.Depart(1 - *here.Came)
	}
	return here, err
}

// note writes how many nodes of this side are safe; what the other agent wrote stays.
func note(agent *Agent, side, mine int, board string) (string, error) {
	for {
		safe := safeOn(board)
		safe[side] = mine
		written, now, err := agent.Write(board, boardOf(safe))
		if board = now; written || err != nil {
			return board, err
		}
	}
}

// search searches until the agent has accused.
func search(agent *Agent, home Here, nodes int) error {
	side, board, err := chooseSide(agent, home)
	for mine := 0; err == nil; {
		ahead := side
		if mine > 0 {
			last, err := walk(agent, side, mine)
			if err != nil {
				return err
			}
			ahead = 1 - *last.Came
		}
		if mine+safeOn(board)[1-side] == nodes-2 {
			return agent.Accuse(ahead)
		}
		found, err := agent.Depart(ahead)
		if err != nil {
			return err
		}
		mine++
		home, err := walk(agent, *found.Came, mine)
		if err != nil {
			return err
		}
		if board, err = note(agent, side, mine, home.Board); err != nil {
			return err
		}
	}
	return err
}

func known(name, otherwise string) string {
	if value, is := os.LookupEnv(name); is {
		return value
	}
	return otherwise
}

// play plays one agent by the words HOST PORT KEY NODES.
func play(words []string) error {
	nodes, err := strconv.Atoi(words[3])
	if err != nil {
		return err
	}
	agent, home, err := Join(net.JoinHostPort(words[0], words[1]), words[2])
	if err != nil {
		return err
	}
	defer agent.Close()
	return search(agent, home, nodes)
}

func main() {
	words := os.Args[1:]
	if len(words) == 1 {
		words = []string{known("ARENA_HOST", "127.0.0.1"), known("ARENA_PORT", "4000"), known("ARENA_KEY", ""), words[0]}
	}
	if len(words) != 4 {
		fmt.Fprintln(os.Stderr, "usage: careful HOST PORT KEY NODES")
		os.Exit(2)
	}
	if err := play(words); err != nil {
		fmt.Fprintln(os.Stderr, err)
		if !errors.Is(err, ErrOver) {
			os.Exit(1)
		}
	}
}

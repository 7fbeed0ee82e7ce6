// Clients of examples/three_processes, each with a name of its own, which it claims and then gives a value, one command after another:
// lines_client ENDPOINTS CLIENTS COMMANDS FIRST. ENDPOINTS are addresses, divided by commas; a client asks one of them, over one
// connection. The clients are numbered from FIRST on. What it prints is told in bench/measure.
package main

import (
	"bench/measure"
	"bufio"
	"fmt"
	"net"
	"time"
)

func ask(stream net.Conn, lines *bufio.Reader, client, seq int) error {
	verb, wanted := "update", "Updated\n"
	if seq == 1 {
		verb, wanted = "claim", "Claimed\n"
	}
	if err := stream.SetDeadline(time.Now().Add(time.Minute)); err != nil {
		return err
	}
	if _, err := fmt.Fprintf(stream, "%s %d %d name-%d %s\n", verb, client, seq, client, measure.Value); err != nil {
		return err
	}
	said, err := lines.ReadString('\n')
	if err != nil {
		return err
	}
	if said != wanted {
		return fmt.Errorf("%s %d of client %d: %q", verb, seq, client, said)
	}
	return nil
}

func write(endpoint string, client, commands int, took *measure.Took) error {
	stream, err := net.Dial("tcp", endpoint)
	if err != nil {
		return err
	}
	defer stream.Close()
	lines := bufio.NewReader(stream)
	for seq := 1; seq <= commands; seq++ {
		if err := took.Time(func() error { return ask(stream, lines, client, seq) }); err != nil {
			return err
		}
	}
	return nil
}

func main() {
	options := measure.Read("lines_client ENDPOINTS CLIENTS COMMANDS FIRST", 1)
	measure.Run(options, func(endpoint string, number int, took *measure.Took) error {
		return write(endpoint, options.Others[0]+number, options.Commands, took)
	})
}

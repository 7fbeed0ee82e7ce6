// Package measure is what the clients share: their words, how long commands take, and the line that tells it.
package measure

import (
	"fmt"
	"os"
	"sort"
	"strconv"
	"strings"
	"sync"
	"time"
)

// Value is the value that each command gives.
const Value = "203.0.113.7:8443"

// Options are a client's words: the addresses, of which a client asks one, how many clients there are, and how many commands each asks.
type Options struct {
	Endpoints         []string
	Clients, Commands int
	// Others are the numbers behind these.
	Others []int
}

// Read reads ENDPOINTS CLIENTS COMMANDS, and so many numbers behind them. Other words end the program with its usage.
func Read(usage string, others int) Options {
	words := os.Args[1:]
	if len(words) != 3+others {
		refuse(usage)
	}
	numbers := make([]int, len(words)-1)
	for place, word := range words[1:] {
		number, err := strconv.Atoi(word)
		if err != nil || number < 1 {
			refuse(usage)
		}
		numbers[place] = number
	}
	return Options{strings.Split(words[0], ","), numbers[0], numbers[1], numbers[2:]}
}

func refuse(usage string) {
	fmt.Fprintln(os.Stderr, "usage: "+usage)
	os.Exit(2)
}

// Took has the microseconds of each command of a client.
type Took struct {
	micros []int64
}

// Time runs a command, and notes how long it took if it was acknowledged.
func (took *Took) Time(command func() error) error {
	begun := time.Now()
	if err := command(); err != nil {
		return err
	}
	took.micros = append(took.micros, time.Since(begun).Microseconds())
	return nil
}

// Run runs all clients at a time, each with its endpoint and its number from 0 on. Then it prints the commands that were
// acknowledged, the microseconds of the whole, and those of a command: half took no more than the first number, 99 of 100 no
// more than the second. A client that fails ends the program with its error.
func Run(options Options, client func(endpoint string, number int, took *Took) error) {
	all := make([]Took, options.Clients)
	var waiting sync.WaitGroup
	begun := time.Now()
	for number := range all {
		waiting.Add(1)
		go func(number int) {
			defer waiting.Done()
			took := &all[number]
			took.micros = make([]int64, 0, options.Commands)
			if err := client(options.Endpoints[number%len(options.Endpoints)], number, took); err != nil {
				fmt.Fprintln(os.Stderr, err)
				os.Exit(1)
			}
		}(number)
	}
	waiting.Wait()
	tell(all, time.Since(begun).Microseconds())
}

func tell(all []Took, whole int64) {
	var micros []int64
	for _, took := range all {
		micros = append(micros, took.micros...)
	}
	sort.Slice(micros, func(i, j int) bool { return micros[i] < micros[j] })
	count := len(micros)
	half, most := micros[(count-1)/2], micros[count-count/100-1]
	fmt.Printf("acknowledged %d micros %d half %d most %d\n", count, whole, half, most)
}

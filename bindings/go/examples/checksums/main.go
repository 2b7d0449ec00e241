// Checksums counts the IPv4 headers of a file whose checksum is right, on goroutines that run one program.
//
//	checksums CHECKSUM.o HEADERS [GOROUTINES]
//
// CHECKSUM.o is examples/checksum.o of the repository. HEADERS has headers of 20 bytes, one after another. GOROUTINES is 4 if it isn't given.
package main

import (
	"errors"
	"fmt"
	"os"
	"strconv"

	"cikpodun.example/ebpfhost"
)

const (
	length = 20
	batch  = 64
)

func main() {
	if err := run(os.Args[1:]); err != nil {
		fmt.Fprintln(os.Stderr, "checksums:", err)
		os.Exit(1)
	}
}

func run(words []string) error {
	if len(words) == 2 {
		words = append(words, "4")
	}
	if len(words) != 3 {
		return errors.New("usage: checksums CHECKSUM.o HEADERS [GOROUTINES]")
	}
	goroutines, err := strconv.Atoi(words[2])
	if err != nil || goroutines < 1 {
		return errors.New("GOROUTINES is a number from 1")
	}
	program, err := load(words[0])
	if err != nil {
		return err
	}
	defer program.Close()
	headers, err := os.ReadFile(words[1])
	if err != nil {
		return err
	}
	right, err := countOn(goroutines, program, headers)
	if err == nil {
		fmt.Printf("right %d of %d\n", right, len(headers)/length)
	}
	return err
}

func load(path string) (*ebpfhost.Program, error) {
	file, err := os.ReadFile(path)
	if err != nil {
		return nil, err
	}
	return ebpfhost.LoadELF(file, "", ebpfhost.Declaration{Context: length})
}

// part is what one goroutine counted.
type part struct {
	right int
	err   error
}

// countOn counts the right headers, with a part of them for each goroutine.
func countOn(goroutines int, program *ebpfhost.Program, headers []byte) (right int, err error) {
	all, parts := len(headers)/length, make(chan part)
	for i := 0; i < goroutines; i++ {
		first, end := all*i/goroutines, all*(i+1)/goroutines
		go func() { parts <- count(program, headers[first*length:end*length]) }()
	}
	for i := 0; i < goroutines; i++ {
		one := <-parts
		right += one.right
		if one.err != nil {
			err = one.err
		}
	}
	return right, err
}

// count counts the right headers. All goroutines run one program, each on a machine of its own.
func count(program *ebpfhost.Program, headers []byte) (of part) {
	machine, err := ebpfhost.NewMachine(1)
	if err != nil {
		return part{err: err}
	}
	defer machine.Close()
	reports := make([]ebpfhost.Report, batch)
	for len(headers) > 0 && of.err == nil {
		if len(headers) < batch*length {
			reports = reports[:len(headers)/length]
		}
		some := len(reports) * length
		_, of.err = machine.RunBatch(program, headers[:some], ebpfhost.NoLimit, reports)
		of.right += zeros(reports)
		headers = headers[some:]
	}
	return of
}

func zeros(reports []ebpfhost.Report) (count int) {
	for _, report := range reports {
		if report.Exit == 0 {
			count++
		}
	}
	return count
}

package ebpfhost

import (
	"runtime"
	"sync"
	"sync/atomic"
	"time"
)

// seat says what a machine or a worker is at, by one word: the number of the program that it runs, or one of these marks. A run takes it by one
// atomic step, which keeps other goroutines from the same machine, and a program from being freed while it runs: Program.Close first empties the
// program's handle, which a run reads after it took its seat, and then waits for all seats that have the program's number.
//
// A seat has lines of the processor's cache of its own, since each run writes it.
type seat struct {
	at atomic.Uint64
	_  [120]byte
}

const (
	vacant      = iota // between calls
	occupied           // in a call that runs no program
	closed             // for good
	firstNumber        // of a program
)

var lastNumber atomic.Uint64

// newNumber is a number that no other program has.
func newNumber() uint64 { return firstNumber + lastNumber.Add(1) }

// seats are those of all machines and workers that aren't closed.
var seats = struct {
	sync.Mutex
	all map[*seat]struct{}
}{all: map[*seat]struct{}{}}

func newSeat() *seat {
	s := new(seat)
	seats.Lock()
	defer seats.Unlock()
	seats.all[s] = struct{}{}
	return s
}

func (s *seat) remove() {
	seats.Lock()
	defer seats.Unlock()
	delete(seats.all, s)
}

// take takes the seat for a program's number, or with a mark. A seat of nil is that of a machine that no function made.
func (s *seat) take(number uint64) error {
	if s != nil && s.at.CompareAndSwap(vacant, number) {
		return nil
	}
	return s.why()
}

// why says why the seat wasn't taken.
func (s *seat) why() error {
	if s == nil || s.at.Load() == closed {
		return ErrClosed
	}
	return ErrInUse
}

func (s *seat) leave() { s.at.Store(vacant) }

// waitForRuns waits until no seat has the number of a program whose handle is empty: no more runs of it begin.
func waitForRuns(number uint64) {
	for _, s := range seatsWith(number) {
		for turns := 0; s.at.Load() == number; turns++ {
			if turns < 100 {
				runtime.Gosched()
			} else {
				time.Sleep(20 * time.Microsecond)
			}
		}
	}
}

func seatsWith(number uint64) (running []*seat) {
	seats.Lock()
	defer seats.Unlock()
	for s := range seats.all {
		if s.at.Load() == number {
			running = append(running, s)
		}
	}
	return running
}

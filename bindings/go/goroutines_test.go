package ebpfhost

import (
	"errors"
	"os"
	"runtime"
	"strconv"
	"strings"
	"sync"
	"sync/atomic"
	"testing"
	"time"
)

const (
	goroutines = 8
	turns      = 500
	batch      = 16
)

// sums are what runs were granted and refused of a kind, and found on its shelf.
type sums struct{ granted, refused, gets atomic.Uint64 }

func (s *sums) add(report Report) {
	s.granted.Add(report.Granted)
	s.refused.Add(report.Refused)
	s.gets.Add(report.Fetched)
}

// work is what a goroutine does: runs of a program that takes a cell and gives it back, and of one that exchanges records.
func work(t *testing.T, worker *Worker, cell, leave *Program, of *[2]sums) {
	reports := make([]Report, batch)
	for i := 0; i < turns; i++ {
		if _, err := worker.RunBatch(cell, nil, NoLimit, reports); err != nil {
			t.Error(err)
		}
		addAll(&of[Cell], reports)
		report, err := worker.Run(leave, []byte{byte(i)})
		if err != nil || !report.Exited || report.Fetched+report.Missed != report.Granted {
			t.Error(report, err)
		}
		of[Record].add(report)
	}
	ends(t, worker.Close(), nil)
}

func addAll(to *sums, reports []Report) {
	for _, report := range reports {
		to.add(report)
	}
}

// together runs this on goroutines, and waits for them.
func together(count int, work func()) {
	var all sync.WaitGroup
	for i := 0; i < count; i++ {
		all.Add(1)
		go func() {
			defer all.Done()
			work()
		}()
	}
	all.Wait()
}

// Totals are what the reports of all goroutines say. A worker that meets others at the slabs for too long is refused an object, which depends on
// time.
func TestTotals(t *testing.T) {
	cell, leave := loaded(t, cell, 0, 1), loaded(t, leave, 1, 1)
	shared := must(NewShared(16, goroutines))(t)
	var of [2]sums
	together(goroutines, func() { work(t, must(shared.Open())(t), cell, leave, &of) })
	totals := must(shared.Close())(t)
	for kind := Cell; kind <= Record; kind++ {
		got := totals.Kinds[kind]
		is(t, got.Allocs, of[kind].granted.Load())
		is(t, got.Nulls+got.Busy, of[kind].refused.Load())
		is(t, got.Gets, of[kind].gets.Load())
		want := got
		want.Frees, want.Missing, want.Foreign, want.Puts = got.Allocs, 0, 0, got.Gets+got.Left
		is(t, got, want)
		is(t, got.Allocs > 0, true)
	}
	is(t, of[Cell].granted.Load()+of[Cell].refused.Load(), goroutines*turns*batch)
	is(t, totals.Kinds[Record].Puts, of[Record].granted.Load())
	is(t, totals.Clashes+totals.Strays, 0)
}

// A program is closed while goroutines run it: each run either is done, or fails with ErrClosed.
func TestCloseWhileRunning(t *testing.T) {
	for i := 0; i < 50; i++ {
		program := loaded(t, seven, 0, 0)
		var started atomic.Int32
		go func() {
			for started.Load() < goroutines {
				runtime.Gosched()
			}
			ends(t, program.Close(), nil)
		}()
		together(goroutines, func() {
			machine := must(NewMachine(1))(t)
			started.Add(1)
			ends(t, untilError(machine, program), ErrClosed)
			ends(t, machine.Close(), nil)
		})
		_, err := program.Share()
		ends(t, err, ErrClosed)
	}
}

// untilError runs a program again and again, and returns the first error.
func untilError(machine *Machine, program *Program) error {
	for {
		report, err := machine.Run(program, nil)
		if err != nil {
			return err
		}
		if report.Exit != 7 {
			return errors.New("another number")
		}
	}
}

// Goroutines that use one machine at once fail with ErrInUse or do what they should, also when one of them closes it.
func TestOneMachine(t *testing.T) {
	machine, program := must(NewMachine(1))(t), loaded(t, cell, 0, 1)
	together(goroutines, func() {
		for i := 0; i < 2000; i++ {
			if report, err := machine.Run(program, nil); err == nil {
				is(t, report.Exit, 5)
			} else {
				is(t, err == ErrInUse || err == ErrClosed, true)
			}
		}
		machine.Close()
	})
	ends(t, machine.Close(), ErrClosed)
}

// resident is how many pages of memory this process has.
func resident(t *testing.T) int {
	fields := strings.Fields(string(must(os.ReadFile("/proc/self/statm"))(t)))
	return must(strconv.Atoi(fields[1]))(t)
}

// Programs are loaded and closed without end, at constant memory: at most 8 MiB more, which is the garbage collector's to use.
func TestManyLoads(t *testing.T) {
	const loads = 100_000
	machine, slots, before := must(NewMachine(1))(t), slotsOf(t, seven), 0
	for i := 0; i < loads; i++ {
		program := must(Load(slots, Declaration{}))(t)
		other := must(program.Share())(t)
		program.Close()
		if i%10 == 0 {
			is(t, must(machine.Run(other, nil))(t).Exit, 7)
		}
		other.Close()
		if i == loads/10 {
			before = resident(t)
		}
	}
	is(t, resident(t) <= before+2048, true)
}

// What isn't closed is freed by the garbage collector: so a new worker can be opened, and no seat is left.
func TestFinalizers(t *testing.T) {
	runtime.GC()
	shared, program := must(NewShared(1, 1))(t), loaded(t, seven, 0, 0)
	for i := 0; i < 20; i++ {
		worker, err := shared.Open()
		for tries := 0; errors.Is(err, ErrBusy) && tries < 1000; tries++ {
			runtime.GC()
			time.Sleep(time.Millisecond)
			worker, err = shared.Open()
		}
		is(t, must(must(worker, err)(t).Run(program, nil))(t).Exit, 7)
		must(loaded(t, seven, 0, 0).Share())(t)
		must(NewMachine(1))(t)
		must(NewShared(1, 1))(t)
	}
	for tries := 0; seatsLeft() > 0 && tries < 1000; tries++ {
		runtime.GC()
		time.Sleep(time.Millisecond)
	}
	is(t, seatsLeft(), 0)
}

func seatsLeft() int {
	seats.Lock()
	defer seats.Unlock()
	return len(seats.all)
}

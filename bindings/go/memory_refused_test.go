//go:build want_of_memory

package ebpfhost

import (
	"errors"
	"runtime"
	"strings"
	"testing"
)

// served makes a call with that many allocations of C served. It says whether it was done; otherwise one was refused, and the error says so.
func served(t *testing.T, allocations int, call func() error) bool {
	t.Helper()
	serve(allocations)
	err := call()
	wasRefused := serve(-1)
	if err != nil && !(wasRefused && (errors.Is(err, ErrNoMemory) || errors.Is(err, ErrNoObject))) {
		t.Fatal(err)
	}
	return err == nil
}

// Each allocation of each call is refused in turn, and the call fails with ErrNoMemory or does what it says.
func TestWantOfMemory(t *testing.T) {
	runtime.LockOSThread()
	defer runtime.UnlockOSThread()
	slots, failed := slotsOf(t, cell), true
	allocations := 0
	for ; failed; allocations++ {
		failed = !callsServed(t, allocations, slots)
	}
	is(t, allocations > 10, true)
}

// callsServed makes the calls that allocate, each with that many allocations served. It says whether all were done.
func callsServed(t *testing.T, allocations int, slots []byte) bool {
	program, all := loaded(t, cell, 0, 1), true
	var machine *Machine
	var shared *Shared
	var worker *Worker
	for _, call := range []func() error{
		listedNone,
		func() (err error) { _, err = Load(slots, Declaration{Held: 1}); return },
		func() (err error) { _, err = program.Share(); return },
		func() (err error) { machine, err = NewMachine(1); return },
		func() (err error) { return ran(machine, program) },
		func() (err error) { shared, err = NewShared(2, 1); return },
		func() (err error) { worker, err = opened(shared); return },
		func() (err error) { return put(worker) },
	} {
		all = served(t, allocations, call) && all
	}
	if machine != nil {
		is(t, must(machine.Run(program, nil))(t).Exit, 5)
		is(t, machine.Close() == nil && (worker == nil || worker.Close() == nil), true)
	}
	return all
}

// listedNone lists the functions of no file, which is refused if there is memory for that.
func listedNone() error {
	_, err := ELFFunctions(nil)
	if why := (*Refused)(nil); errors.As(err, &why) {
		return nil
	}
	return err
}

func ran(machine *Machine, program *Program) error {
	if machine == nil {
		return nil
	}
	_, err := machine.Run(program, nil)
	return err
}

func opened(shared *Shared) (*Worker, error) {
	if shared == nil {
		return nil, nil
	}
	return shared.Open()
}

func put(worker *Worker) error {
	if worker == nil {
		return nil
	}
	_, err := worker.Put(Record, nil)
	return err
}

// A batch in which a run finds no memory says how many were run before it, and a batch of the rest goes on. Runs of so long a program go on four
// together, in memory of their own.
func TestBatchWithoutMemory(t *testing.T) {
	runtime.LockOSThread()
	defer runtime.UnlockOSThread()
	program := loaded(t, "b700000000000000"+strings.Repeat("0700000001000000", 2200)+"9500000000000000", 0, 0)
	seen := map[int]bool{}
	for allocations := 0; !seen[5]; allocations++ {
		machine, reports := must(NewMachine(1))(t), make([]Report, 5)
		done := 0
		served(t, allocations, func() (err error) { done, err = machine.RunBatch(program, nil, NoLimit, reports); return })
		seen[done] = true
		rest := must(machine.RunBatch(program, nil, NoLimit, reports[done:]))(t)
		is(t, done+rest, 5)
		is(t, reports[4].Exit, 2200)
	}
	is(t, len(seen) == 3 && seen[0] && seen[4], true)
}

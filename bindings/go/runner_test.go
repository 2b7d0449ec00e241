package ebpfhost

import (
	"bytes"
	"testing"
)

// runs is what a machine and a worker do alike.
type runs interface {
	Run(*Program, []byte) (Report, error)
	RunWithin(*Program, []byte, uint64, []uint64) (Report, error)
	RunBatch(*Program, []byte, uint64, []Report) (int, error)
	Put(Kind, []byte) (bool, error)
	Take(Kind, []byte) (bool, error)
	Close() error
}

func testRuns(t *testing.T, by runs) {
	emit, cell := loaded(t, emit, 1, 0), loaded(t, cell, 0, 1)
	output, want := []uint64{0, 9}, Report{Exit: 7, Executed: 4, Outputs: 1, Exited: true}
	is(t, must(by.RunWithin(emit, []byte("*"), NoLimit, output))(t), want)
	is(t, [2]uint64{output[0], output[1]}, [2]uint64{42, 9})
	is(t, must(by.Run(emit, []byte("*")))(t), want)
	is(t, must(by.RunWithin(emit, []byte("*"), 3, output[:0]))(t), Report{Executed: 3, Outputs: 1})
	is(t, must(by.Run(cell, nil))(t), Report{Exit: 5, Executed: 9, Peak: 1, Granted: 1, Exited: true})
	is(t, must(by.Run(cell, []byte{}))(t).Exit, 5)
	for _, context := range []string{"", "ab"} {
		report, err := by.Run(emit, []byte(context))
		is(t, report, Report{})
		ends(t, err, ErrContext)
	}
	_, err := by.Run(cell, []byte("a"))
	ends(t, err, ErrContext)
	_, err = by.Run(nil, nil)
	ends(t, err, ErrClosed)
	_, err = by.Run(new(Program), nil)
	ends(t, err, ErrClosed)
}

func testBatches(t *testing.T, by runs) {
	read, cell := loaded(t, read, 4, 0), loaded(t, cell, 0, 1)
	contexts, reports := []byte("\x01\x00\x00\x00\x02\x00\x00\x00\x03\x00\x00\x00"), make([]Report, 3)
	is(t, must(by.RunBatch(read, contexts, NoLimit, reports))(t), 3)
	is(t, [3]uint64{reports[0].Exit, reports[1].Exit, reports[2].Exit}, [3]uint64{1, 2, 3})
	is(t, must(by.RunBatch(read, contexts, 1, reports))(t), 3)
	is(t, reports[2], Report{Executed: 1})
	is(t, must(by.RunBatch(cell, nil, NoLimit, reports))(t), 3)
	is(t, reports[2], Report{Exit: 5, Executed: 9, Peak: 1, Granted: 1, Exited: true})
	is(t, must(by.RunBatch(read, nil, NoLimit, nil))(t), 0)
	for _, wrong := range [][]byte{contexts[:8], nil} {
		done, err := by.RunBatch(read, wrong, NoLimit, reports)
		is(t, done, 0)
		ends(t, err, ErrContext)
	}
	is(t, reports[2].Exit, 5)
}

// testShelves tests the shelves of one with a single page.
func testShelves(t *testing.T, by runs) {
	fetch, leave := loaded(t, fetch, 0, 1), loaded(t, leave, 1, 1)
	object := bytes.Repeat([]byte("x"), 65)
	is(t, must(by.Take(Record, object))(t), false)
	is(t, string(object[:2]), "xx")
	is(t, must(by.Put(Record, []byte("one")))(t), false)
	is(t, must(by.Put(Record, []byte("other")))(t), true)
	is(t, must(by.Take(Record, object))(t), true)
	is(t, string(object[:6])+string(object[63:]), "other\xff\xffx")
	is(t, must(by.Put(Record, nil))(t), false)
	is(t, must(by.Take(Record, nil))(t), true)
	is(t, must(by.Run(leave, []byte("a")))(t).Missed, 1)
	is(t, must(by.Run(fetch, nil))(t).Fetched, 1)
	is(t, must(by.Run(fetch, nil))(t).Missed, 1)
	for kind, size := range map[Kind]int{Cell: 16, Record: 64, Block: 512} {
		_, err := by.Put(kind, make([]byte, size+1))
		ends(t, err, ErrLength)
	}
	_, err := by.Put(3, nil)
	ends(t, err, ErrKind)
	_, err = by.Take(3, nil)
	ends(t, err, ErrKind)
	is(t, must(by.Put(Record, make([]byte, 64)))(t), false)
	_, err = by.Put(Cell, nil) // the page has records
	ends(t, err, ErrNoObject)
}

// testClosed tests that each call of what is closed fails.
func testClosed(t *testing.T, by runs) {
	ends(t, by.Close(), nil)
	ends(t, by.Close(), ErrClosed)
	testFails(t, by, ErrClosed)
}

func testFails(t *testing.T, by runs, want error) {
	t.Helper()
	program := loaded(t, seven, 0, 0)
	_, err := by.Run(program, nil)
	ends(t, err, want)
	_, err = by.RunWithin(program, nil, 1, nil)
	ends(t, err, want)
	_, err = by.RunBatch(program, nil, 1, nil)
	ends(t, err, want)
	_, err = by.Put(Cell, nil)
	ends(t, err, want)
	_, err = by.Take(Cell, nil)
	ends(t, err, want)
	ends(t, program.Close(), nil)
}

func TestMachine(t *testing.T) {
	machine, small := must(NewMachine(2))(t), must(NewMachine(1))(t)
	testRuns(t, machine)
	testBatches(t, machine)
	testShelves(t, small)
	is(t, must(small.Take(Record, nil))(t), true)
	ends(t, small.Reap(), nil)
	is(t, must(small.Put(Cell, nil))(t), false)
	testClosed(t, machine)
	ends(t, machine.Reap(), ErrClosed)
	var zero Machine
	testFails(t, &zero, ErrClosed)
	ends(t, zero.Reap(), ErrClosed)
	ends(t, zero.Close(), ErrClosed)
}

func TestRanges(t *testing.T) {
	for _, pages := range []int{0, 257, -1, 1<<32 + 1} {
		_, err := NewMachine(pages)
		ends(t, err, ErrPages)
		_, err = NewShared(pages, 1)
		ends(t, err, ErrPages)
	}
	for _, workers := range []int{0, 65, -1, 1<<32 + 1} {
		_, err := NewShared(1, workers)
		ends(t, err, ErrWorkers)
	}
}

// While a goroutine is in a call of a machine, as its seat says, each other call of it fails, and changes nothing.
func TestInUse(t *testing.T) {
	machine := must(NewMachine(1))(t)
	ends(t, machine.seat.take(occupied), nil)
	testFails(t, machine, ErrInUse)
	ends(t, machine.Reap(), ErrInUse)
	ends(t, machine.Close(), ErrInUse)
	machine.seat.leave()
	testClosed(t, machine)
}

func TestWorkers(t *testing.T) {
	shared := must(NewShared(2, 2))(t)
	one, other := must(shared.Open())(t), must(shared.Open())(t)
	_, err := shared.Open()
	ends(t, err, ErrBusy)
	_, err = shared.Close()
	ends(t, err, ErrBusy)
	testRuns(t, one)
	testBatches(t, other)
	testClosed(t, other)
	other = must(shared.Open())(t)
	is(t, must(shared.Reap())(t) <= 2, true)
	ends(t, one.Close(), nil)
	ends(t, other.Close(), nil)
	totals := must(shared.Close())(t)
	is(t, totals.Kinds[Cell].Allocs, 5)
	is(t, totals.Kinds[Cell].Frees, 5)
	is(t, totals.Kinds[Record], KindTotals{})
	for range [2]int{} {
		_, err = shared.Open()
		ends(t, err, ErrClosed)
		_, err = shared.Reap()
		ends(t, err, ErrClosed)
		_, err = shared.Close()
		ends(t, err, ErrClosed)
		ends(t, shared.Free(), ErrClosed)
		shared = new(Shared)
	}
}

func TestWorkerOutlivesShared(t *testing.T) {
	shared := must(NewShared(1, 1))(t)
	worker := must(shared.Open())(t)
	testShelves(t, worker)
	ends(t, shared.Free(), nil)
	is(t, must(worker.Run(loaded(t, seven, 0, 0), nil))(t).Exit, 7)
	testClosed(t, worker)
}

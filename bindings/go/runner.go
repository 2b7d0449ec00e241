package ebpfhost

// #include "glue.h"
import "C"

import (
	"runtime"
	"unsafe"
)

// Machine is the memory of runs, with shelves of its own: one run at a time, of any program. It belongs to no goroutine, but a call while another
// goroutine is in one fails with ErrInUse.
type Machine struct{ runner }

// Worker runs programs over the caches and shelves of a Shared, beside the other workers. It belongs to no goroutine, but a call while another
// goroutine is in one fails with ErrInUse. It may outlive what it was opened from.
type Worker struct{ runner }

// runner is what a machine and a worker have in common.
type runner struct {
	handle *C.ebpfhost_runner
	seat   *seat
	report Report   // of the last run: C may write it, since it has no pointers
	done   C.size_t // by the last batch
}

// NewMachine makes a machine whose objects are on up to that many pages of 4,096 bytes, 1 to 256. A page is allocated when it is first needed.
//
// It fails with ErrPages or ErrNoMemory.
func NewMachine(pages int) (*Machine, error) {
	var made *C.ebpfhost_runner
	if status := C.ebpfhost_new_machine(&made, number(pages)); status != C.EBPF_DONE {
		return nil, failure(status)
	}
	m := &Machine{runner{handle: made, seat: newSeat()}}
	runtime.SetFinalizer(m, (*Machine).Close)
	return m, nil
}

// Reap gives back each page with no object on it, so that objects of any kind may be there.
func (m *Machine) Reap() error {
	if err := m.seat.take(occupied); err != nil {
		return err
	}
	defer m.leave(nil)
	return failure(C.ebpfhost_reap_machine(m.handle))
}

// Close frees the machine with its objects. One that isn't closed is freed once nothing refers to it.
func (m *Machine) Close() error {
	err := m.close()
	if err == nil {
		runtime.SetFinalizer(m, nil)
	}
	return err
}

// Close closes the worker, and makes room for another. One that isn't closed is freed once nothing refers to it.
func (w *Worker) Close() error {
	err := w.close()
	if err == nil {
		runtime.SetFinalizer(w, nil)
	}
	return err
}

func (r *runner) close() error {
	if err := r.seat.take(closed); err != nil {
		return err
	}
	r.seat.remove()
	C.ebpfhost_free_runner(r.handle)
	runtime.KeepAlive(r)
	return nil
}

// leave is the end of a call. Until then neither the runner nor the program can be freed by the garbage collector, since they are needed here.
func (r *runner) leave(program *Program) {
	r.seat.leave()
	runtime.KeepAlive(r)
	runtime.KeepAlive(program)
}

// Run runs a program on a context, to its end. The numbers that it emits are only counted.
//
// It fails with ErrContext, ErrNoMemory, ErrClosed or ErrInUse.
func (r *runner) Run(program *Program, context []byte) (report Report, err error) {
	err = r.run(program, context, NoLimit, nil, &report)
	return
}

// RunPadded runs a program on a context that may be shorter than was declared, to its end: zeros come after its bytes.
//
// It fails as Run does, with ErrContext if the context is longer.
func (r *runner) RunPadded(program *Program, context []byte) (report Report, err error) {
	handle, err := r.begin(program)
	if err != nil {
		return
	}
	defer r.leave(program)
	status := C.ebpfhost_run_padded(r.handle, handle, first(context), C.size_t(len(context)), NoLimit, nil, 0,
		(*C.ebpf_report)(unsafe.Pointer(&r.report)))
	if status == C.EBPF_DONE {
		report = r.report
	}
	return report, failure(status)
}

// RunWithin runs a program on a context, that many instructions at most, and writes the numbers that it emits to output, as far as there is room.
//
// A run that has not exited by then is given up, which is no error. What it had taken off a shelf is lost then, so a limit less than NoLimit is
// for programs that use no shelf. It fails as Run does.
func (r *runner) RunWithin(program *Program, context []byte, limit uint64, output []uint64) (report Report, err error) {
	err = r.run(program, context, limit, output, &report)
	return
}

// RunBatch runs a program on len(reports) contexts, which are one after another in contexts, and writes the report of each. Each run costs less
// than by a call of its own, and has the limit for itself. The numbers that they emit are only counted.
//
// It returns how many were run: all, or fewer with ErrNoMemory, where a batch of the rest goes on, or none with another error of Run.
func (r *runner) RunBatch(program *Program, contexts []byte, limit uint64, reports []Report) (int, error) {
	handle, err := r.begin(program)
	if err != nil {
		return 0, err
	}
	defer r.leave(program)
	var place *C.ebpf_report
	if len(reports) > 0 {
		place = (*C.ebpf_report)(unsafe.Pointer(&reports[0]))
	}
	r.done = 0
	status := C.ebpfhost_run_batch(r.handle, handle, first(contexts), C.size_t(len(contexts)), C.uint64_t(limit), place, C.size_t(len(reports)), &r.done)
	return int(r.done), failure(status)
}

// Put leaves an object on the shelf of its kind. It begins with these bytes, and goes on as a new one does. Put says whether it came in place of
// another, which is given back.
//
// It fails with ErrKind, ErrLength, ErrNoObject, ErrClosed or ErrInUse.
func (r *runner) Put(kind Kind, object []byte) (replaced bool, err error) {
	return r.atShelf(func(answer *C.bool) C.ebpf_status {
		return C.ebpfhost_put(r.handle, C.uint32_t(kind), first(object), C.size_t(len(object)), answer)
	})
}

// Take takes the object off the shelf of a kind, and writes its bytes to object, as far as there is room. Take says whether one was there; if
// not, object is as it was.
//
// It fails with ErrKind, ErrClosed or ErrInUse.
func (r *runner) Take(kind Kind, object []byte) (found bool, err error) {
	return r.atShelf(func(answer *C.bool) C.ebpf_status {
		return C.ebpfhost_take(r.handle, C.uint32_t(kind), first(object), C.size_t(len(object)), answer)
	})
}

// atShelf makes a call that answers yes or no.
func (r *runner) atShelf(call func(answer *C.bool) C.ebpf_status) (bool, error) {
	if err := r.seat.take(occupied); err != nil {
		return false, err
	}
	defer r.leave(nil)
	var answer C.bool
	status := call(&answer)
	return bool(answer), failure(status)
}

// run does a run, and writes the report if it was done.
func (r *runner) run(program *Program, context []byte, limit uint64, output []uint64, report *Report) error {
	handle, err := r.begin(program)
	if err != nil {
		return err
	}
	var numbers *C.uint64_t
	if len(output) > 0 {
		numbers = (*C.uint64_t)(unsafe.Pointer(&output[0]))
	}
	status := C.ebpfhost_run(r.handle, handle, first(context), C.size_t(len(context)), C.uint64_t(limit), numbers, C.size_t(len(output)),
		(*C.ebpf_report)(unsafe.Pointer(&r.report)))
	if status == C.EBPF_DONE {
		*report = r.report
	}
	r.leave(program)
	return failure(status)
}

// begin takes the seat for a run of a program, and gives the program's handle, which is not freed before the seat is left.
func (r *runner) begin(program *Program) (*C.ebpfhost_program, error) {
	if program == nil || program.number == vacant {
		return nil, ErrClosed
	}
	if err := r.seat.take(program.number); err != nil {
		return nil, err
	}
	handle := program.handle.Load()
	if handle == nil {
		r.leave(program)
		return nil, ErrClosed
	}
	return handle, nil
}

package ebpfhost

// #include "glue.h"
import "C"

import (
	"runtime"
	"sync"
	"unsafe"
)

// Shared has the caches and shelves of a host's goroutines, each of which has a Worker. Any number of goroutines may call it at once, also while
// workers run.
type Shared struct {
	mutex  sync.Mutex // the library takes one call at a time
	handle *C.ebpfhost_shared
}

// NewShared makes what up to that many workers share, 1 to 64, with their objects on up to that many pages of 4,096 bytes, 1 to 256.
//
// It fails with ErrPages, ErrWorkers or ErrNoMemory.
func NewShared(pages, workers int) (*Shared, error) {
	var made *C.ebpfhost_shared
	if status := C.ebpfhost_new_shared(&made, number(pages), number(workers)); status != C.EBPF_DONE {
		return nil, failure(status)
	}
	s := &Shared{handle: made}
	runtime.SetFinalizer(s, (*Shared).Free)
	return s, nil
}

// Open opens a worker. It fails with ErrBusy, ErrNoMemory or ErrClosed.
func (s *Shared) Open() (*Worker, error) {
	s.mutex.Lock()
	defer s.mutex.Unlock()
	if s.handle == nil {
		return nil, ErrClosed
	}
	var made *C.ebpfhost_runner
	if status := C.ebpfhost_open(&made, s.handle); status != C.EBPF_DONE {
		return nil, failure(status)
	}
	w := &Worker{runner{handle: made, seat: newSeat()}}
	runtime.SetFinalizer(w, (*Worker).Close)
	return w, nil
}

// Reap gives back each page with no object on it, while workers run. It returns how many pages were given back, or ErrClosed.
func (s *Shared) Reap() (int, error) {
	s.mutex.Lock()
	defer s.mutex.Unlock()
	if s.handle == nil {
		return 0, ErrClosed
	}
	var pages C.uint32_t
	status := C.ebpfhost_reap_shared(s.handle, &pages)
	return int(pages), failure(status)
}

// Close ends all, and returns the exact totals of what workers did. It fails with ErrBusy if a worker is open, and has then changed nothing, or
// with ErrClosed.
func (s *Shared) Close() (Totals, error) {
	s.mutex.Lock()
	defer s.mutex.Unlock()
	if s.handle == nil {
		return Totals{}, ErrClosed
	}
	var totals Totals
	if status := C.ebpfhost_close_shared(s.handle, (*C.ebpf_totals)(unsafe.Pointer(&totals))); status != C.EBPF_DONE {
		return Totals{}, failure(status)
	}
	s.free()
	return totals, nil
}

// Free ends it without totals. Workers that are open go on, and all is freed with the last of them. One that is neither closed nor freed is freed
// once nothing refers to it. It fails with ErrClosed.
func (s *Shared) Free() error {
	s.mutex.Lock()
	defer s.mutex.Unlock()
	if s.handle == nil {
		return ErrClosed
	}
	s.free()
	return nil
}

func (s *Shared) free() {
	runtime.SetFinalizer(s, nil)
	C.ebpfhost_free_shared(s.handle)
	s.handle = nil
}

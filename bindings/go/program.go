package ebpfhost

// #include "glue.h"
import "C"

import (
	"math"
	"runtime"
	"sync"
	"sync/atomic"
	"unsafe"
)

// Declaration says what a program is loaded for.
type Declaration struct {
	Context int // the bytes that the host gives to each run, 0 to 4096
	Held    int // the most objects that a run may hold at one time, 0 to 64
}

// Program is a program that was verified once, and runs any number of times. Any number of goroutines may use it at once.
type Program struct {
	handle  atomic.Pointer[C.ebpfhost_program] // nil once it is closed
	number  uint64                             // by which a seat says that it runs this program
	sharing sync.Mutex                         // held while the handle is shared or closed

	context, held, slots int
}

// Load verifies raw instruction slots, eight bytes each, as the text section of an object file has them.
//
// As every load it fails with a *Refused, ErrDeclaration or ErrNoMemory.
func Load(slots []byte, declaration Declaration) (*Program, error) {
	return load(slots, nil, declaration, false)
}

// LoadUnrolled does the same after the program's loops are unrolled, which may take milliseconds.
func LoadUnrolled(slots []byte, declaration Declaration) (*Program, error) {
	return load(slots, nil, declaration, true)
}

// LoadELF verifies a function of an object file that clang made, with the constant data that it reads. If the file has only one function, the
// name may be empty.
func LoadELF(file []byte, function string, declaration Declaration) (*Program, error) {
	return load(file, &function, declaration, false)
}

// LoadELFUnrolled does the same after the function's loops are unrolled, which may take milliseconds.
func LoadELFUnrolled(file []byte, function string, declaration Declaration) (*Program, error) {
	return load(file, &function, declaration, true)
}

// Share makes a second handle of the same program, which is not verified again. The program lives until both are closed.
func (p *Program) Share() (*Program, error) {
	p.sharing.Lock()
	defer p.sharing.Unlock()
	handle := p.handle.Load()
	if handle == nil {
		return nil, ErrClosed
	}
	var made *C.ebpfhost_program
	if status := C.ebpfhost_share(&made, handle); status != C.EBPF_DONE {
		return nil, failure(status)
	}
	return newProgram(made), nil
}

// Close frees the handle, after the runs of other goroutines by it have ended. A program that isn't closed is freed once nothing refers to it.
func (p *Program) Close() error {
	p.sharing.Lock()
	handle := p.handle.Swap(nil)
	p.sharing.Unlock()
	if handle == nil {
		return ErrClosed
	}
	runtime.SetFinalizer(p, nil)
	waitForRuns(p.number)
	C.ebpfhost_free_program(handle)
	return nil
}

// Context is how many bytes of context a run takes, as was declared.
func (p *Program) Context() int { return p.context }

// Held is how many objects a run may hold at one time, as was declared.
func (p *Program) Held() int { return p.held }

// Slots is how many slots of eight bytes the program has as it is run, with its loops unrolled: 1 to 4096.
func (p *Program) Slots() int { return p.slots }

func newProgram(handle *C.ebpfhost_program) *Program {
	p := &Program{number: newNumber()}
	p.context, p.held, p.slots = int(C.ebpfhost_context(handle)), int(C.ebpfhost_held(handle)), int(C.ebpfhost_slots(handle))
	p.handle.Store(handle)
	runtime.SetFinalizer(p, (*Program).Close)
	return p
}

// load makes a program of slots, or of a file and the name of a function. If the text of a refusal is longer than the first buffer, the bytes
// are judged once more.
func load(bytes []byte, function *string, declaration Declaration, isUnrolled bool) (*Program, error) {
	ask := question{bytes: bytes, declaration: declaration, isUnrolled: isUnrolled}
	if function != nil {
		ask.name = append([]byte(*function), 0)
	}
	var refusal C.ebpf_refusal
	text := make([]byte, 1024)
	made, status := ask.judge(text, &refusal)
	if status == C.EBPF_REFUSED && int(refusal.length) > len(text) {
		text = make([]byte, refusal.length)
		made, status = ask.judge(text, &refusal)
	}
	switch status {
	case C.EBPF_DONE:
		return newProgram(made), nil
	case C.EBPF_REFUSED:
		return nil, refused(&refusal, text[:refusal.length])
	}
	return nil, failure(status)
}

// question is what a load asks of the library.
type question struct {
	bytes       []byte
	name        []byte // of a function, and a zero; nil if the bytes are slots
	declaration Declaration
	isUnrolled  bool
}

func (q *question) judge(text []byte, refusal *C.ebpf_refusal) (*C.ebpfhost_program, C.ebpf_status) {
	var made *C.ebpfhost_program
	var name *C.char
	var nameLength C.size_t
	if q.name != nil {
		name, nameLength = (*C.char)(unsafe.Pointer(&q.name[0])), C.size_t(len(q.name)-1)
	}
	context, held := number(q.declaration.Context), number(q.declaration.Held)
	status := C.ebpfhost_load(&made, first(q.bytes), C.size_t(len(q.bytes)), name, nameLength, context, held, C.bool(q.isUnrolled),
		(*C.char)(unsafe.Pointer(&text[0])), C.size_t(len(text)), refusal)
	return made, status
}

// first points to the first of some bytes, and is nil if there are none.
func first(bytes []byte) *C.uint8_t {
	if len(bytes) == 0 {
		return nil
	}
	return (*C.uint8_t)(unsafe.Pointer(&bytes[0]))
}

// number is a number as C takes it. One that C can't have becomes the largest, which is out of every range.
func number(n int) C.uint32_t {
	if n < 0 || n > math.MaxUint32 {
		return math.MaxUint32
	}
	return C.uint32_t(n)
}

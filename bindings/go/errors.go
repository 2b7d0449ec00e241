package ebpfhost

// #include "glue.h"
import "C"

import (
	"errors"
	"fmt"
	"strings"
)

// Why calls fail, for errors.Is. Unless its documentation says otherwise, a call that fails has changed nothing.
var (
	// ErrDeclaration says that more than 4,096 bytes of context are declared, or more than 64 objects.
	ErrDeclaration = errors.New("ebpfhost: declaration out of range")
	// ErrPages says that a machine has 1 to 256 pages, and so has what workers share.
	ErrPages = errors.New("ebpfhost: number of pages out of range")
	// ErrContext says that the context, or that of a batch, doesn't have the length for which the program was loaded.
	ErrContext = errors.New("ebpfhost: context of another length")
	// ErrNoMemory says that an allocation of the library failed.
	ErrNoMemory = errors.New("ebpfhost: out of memory")
	// ErrKind says that no kind of object has the number.
	ErrKind = errors.New("ebpfhost: no such kind of object")
	// ErrLength says that an object of the kind has fewer bytes.
	ErrLength = errors.New("ebpfhost: more bytes than an object of the kind has")
	// ErrNoObject says that there is no page, or no memory, for one more object.
	ErrNoObject = errors.New("ebpfhost: no page or memory for an object")
	// ErrWorkers says that 1 to 64 workers share caches and shelves.
	ErrWorkers = errors.New("ebpfhost: number of workers out of range")
	// ErrBusy says that as many workers are open as may be; or, of Shared.Close, that one is.
	ErrBusy = errors.New("ebpfhost: workers are open")
	// ErrClosed says that something was closed, or not made by a function of this package.
	ErrClosed = errors.New("ebpfhost: closed")
	// ErrInUse says that another goroutine is in a call of the same machine or worker.
	ErrInUse = errors.New("ebpfhost: in use by another goroutine")
)

// The errors of the statuses that are neither done nor refused.
var errorOf = map[C.ebpf_status]error{
	C.EBPF_DECLARATION: ErrDeclaration,
	C.EBPF_PAGES:       ErrPages,
	C.EBPF_CONTEXT:     ErrContext,
	C.EBPF_EMPTY:       ErrClosed,
	C.EBPF_NO_MEMORY:   ErrNoMemory,
	C.EBPF_KIND:        ErrKind,
	C.EBPF_LENGTH:      ErrLength,
	C.EBPF_NO_OBJECT:   ErrNoObject,
	C.EBPF_WORKERS:     ErrWorkers,
	C.EBPF_BUSY:        ErrBusy,
}

// failure is the error of a status, which is nil if it is done.
func failure(status C.ebpf_status) error {
	if status == C.EBPF_DONE {
		return nil
	}
	if err, ok := errorOf[status]; ok {
		return err
	}
	return fmt.Errorf("ebpfhost: unknown status %d", status)
}

// Refused says why bytes are no program that can be run, or have none. A load returns a *Refused, which errors.As finds.
type Refused struct {
	Code     string // as "V8" or "O1"
	Slot     int    // the first slot at fault, or 0 if the sentence names none
	Sentence string // the reason, in one line
	Lines    string // the lines after the sentence: what branches of a loop compare, and the line of C. Often empty
}

func (r *Refused) Error() string {
	return fmt.Sprintf("ebpfhost: refused, %s at slot %d: %s", r.Code, r.Slot, r.Sentence)
}

// refused reads the text that a load wrote: a sentence that is indented by two blanks, and further lines.
func refused(refusal *C.ebpf_refusal, text []byte) *Refused {
	var code strings.Builder
	for _, letter := range refusal.code {
		if letter != 0 {
			code.WriteByte(byte(letter))
		}
	}
	sentence, lines, _ := strings.Cut(string(text), "\n")
	return &Refused{Code: code.String(), Slot: int(refusal.slot), Sentence: strings.TrimLeft(sentence, " "), Lines: lines}
}

package ebpfhost

// #include "glue.h"
import "C"

import "unsafe"

// Report says what a run did.
type Report struct {
	Exit     uint64 // the number that the run returned; 0 if it did not exit
	Executed uint64 // how many instructions it did
	Peak     uint64 // the most objects that it held at one time
	Outputs  uint64 // how many numbers it added to its output, which may be more than there was room for
	Granted  uint64 // how many calls of new were granted an object
	Refused  uint64 // how many calls of new were answered null
	Fetched  uint64 // how many calls of swap found an object on the shelf
	Missed   uint64 // how many calls of swap found nothing there
	Exited   bool   // whether it exited within its limit
	_        [7]byte
}

// KindTotals says what all workers did to the objects of one kind. Frees are Allocs, and Puts are Gets and Left together.
type KindTotals struct {
	Allocs  uint64 // how often a worker was given an object
	Frees   uint64 // how often one came back, counting the one that was on the shelf at the end
	Nulls   uint64 // how often one was refused for want of a page or of memory
	Busy    uint64 // how often one was refused because another worker was at the slabs or the pages for too long
	Missing uint64 // how many objects had not come back: 0, unless memory was damaged
	Foreign uint64 // how many came back that had not been given: 0, unless memory was damaged
	Puts    uint64 // how often an object was put on the shelf
	Gets    uint64 // how often one was got from it
	Left    uint64 // how many were on it at the end: 0 or 1
}

// Totals are those of all that workers did since NewShared.
type Totals struct {
	Kinds   [3]KindTotals // by Kind
	Clashes uint64        // how many objects went back since another run owned them: 0, unless memory was damaged
	Strays  uint64        // how many objects off a shelf went back since another run owned them: 0, unless memory was damaged
}

// The library writes reports and totals where they are, so they have the layout of C: an array has no negative length.
var (
	_ [unsafe.Sizeof(Report{}) - C.sizeof_ebpf_report]struct{}
	_ [C.sizeof_ebpf_report - unsafe.Sizeof(Report{})]struct{}
	_ [unsafe.Sizeof(Totals{}) - C.sizeof_ebpf_totals]struct{}
	_ [C.sizeof_ebpf_totals - unsafe.Sizeof(Totals{})]struct{}
)

// Kind is a kind of object, with a shelf of its own, by the number that programs pass to new and to swap.
type Kind uint32

const (
	Cell   Kind = C.EBPF_CELL   // 16 bytes, first all 0
	Record Kind = C.EBPF_RECORD // 64 bytes, first all 0xff
	Block  Kind = C.EBPF_BLOCK  // 512 bytes, first all 0x5a
)

// NoLimit is the most instructions that a program does. Under this limit no run is given up, and nothing on a shelf is lost.
const NoLimit = 4096

// Package ebpfhost runs small eBPF programs (RFC 9669) that others wrote, in the host's own process: for packet hooks, plug-ins and policies.
//
// A program is loaded and verified once. From then on no run of it traps, loops, leaks an object or disturbs another. This package is the C library
// ebpf_host for Go; docs/EMBEDDING.md of its repository says what runs, shelves and workers are.
//
// A *Program is run by any number of goroutines at once. Each has a Machine of its own, or a Worker of a Shared, by which they share caches and
// shelves. A machine or a worker belongs to no goroutine, but does one call at a time.
//
// What is closed fails with ErrClosed from then on. What isn't closed is freed by the garbage collector once nothing refers to it.
//
// Contexts, output, reports and objects are slices of the host, which the library reads and writes where they are, and keeps no pointer to. No other
// goroutine may write them during the call.
package ebpfhost

// #cgo LDFLAGS: -lebpf_host
// #include "glue.h"
import "C"

// Version is the version of the library that is linked, as 0.1.0.
func Version() string { return C.GoString(C.ebpfhost_version()) }

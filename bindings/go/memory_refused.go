//go:build want_of_memory

package ebpfhost

// #include <stdbool.h>
// bool ebpfhost_serve(long allocations);
import "C"

// serve serves this thread that many allocations of C from here on, or all if it is below zero. It says whether one was refused before.
func serve(allocations int) bool { return bool(C.ebpfhost_serve(C.long(allocations))) }

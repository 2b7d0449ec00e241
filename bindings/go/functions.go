package ebpfhost

// #include "glue.h"
import "C"

import "unsafe"

// Function is a function of an object file.
type Function struct {
	Name    string // by which LoadELF takes it, at most 255 bytes of it
	Section string // the name of its section, likewise
	Slots   uint64 // how many slots of eight bytes it has
}

// ELFFunctions lists the functions of an object file, in the order of its symbol table. Whether one can be loaded, its load says.
//
// It fails with a *Refused if the file can't be read, or with ErrNoMemory.
func ELFFunctions(file []byte) ([]Function, error) {
	count, err := listed(file, nil)
	if err != nil {
		return nil, err
	}
	found := make([]C.ebpf_function, count)
	if _, err = listed(file, found); err != nil {
		return nil, err
	}
	functions := make([]Function, count)
	for i := range found {
		functions[i] = Function{C.GoString(&found[i].name[0]), C.GoString(&found[i].section[0]), uint64(found[i].slots)}
	}
	return functions, nil
}

// listed writes the functions, as far as there is room, and returns how many there are.
func listed(file []byte, found []C.ebpf_function) (int, error) {
	var count C.size_t
	var refusal C.ebpf_refusal
	var room *C.ebpf_function
	if len(found) > 0 {
		room = &found[0]
	}
	text := make([]byte, 1024) // the sentence of a file that can't be read is shorter
	status := C.ebpfhost_functions(first(file), C.size_t(len(file)), room, C.size_t(len(found)), &count, (*C.char)(unsafe.Pointer(&text[0])),
		C.size_t(len(text)), &refusal)
	if status == C.EBPF_REFUSED {
		return 0, refused(&refusal, text[:refusal.length])
	}
	return int(count), failure(status)
}

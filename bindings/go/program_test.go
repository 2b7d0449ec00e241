package ebpfhost

import (
	"bytes"
	"encoding/binary"
	"errors"
	"strings"
	"testing"
)

const (
	twoObject  = "../../tests/objects/two.o"
	loopObject = "../loop.o"
)

// refusalOf is the refusal with which a load failed.
func refusalOf(t *testing.T, program *Program, err error) *Refused {
	t.Helper()
	var why *Refused
	if program != nil || !errors.As(err, &why) {
		t.Fatalf("not refused: %v", err)
	}
	return why
}

func TestRefusals(t *testing.T) {
	program, err := Load(slotsOf(t, read), Declaration{Context: 3})
	why := refusalOf(t, program, err)
	is(t, *why, Refused{Code: "V8", Sentence: why.Sentence})
	is(t, strings.HasPrefix(why.Sentence, "slot 0 reads 4 bytes at [r1+0]"), true)
	is(t, err.Error(), "ebpfhost: refused, V8 at slot 0: "+why.Sentence)
	two, none := readFile(t, twoObject), Declaration{}
	program, err = LoadELF(two, "largest", Declaration{Context: 15})
	why = refusalOf(t, program, err)
	is(t, *why, Refused{Code: "V8", Slot: 7, Sentence: why.Sentence, Lines: "  ./two.c:14:7: if (words[i] > most)\n"})
	program, err = LoadELFUnrolled(two, "larges", Declaration{Context: 16})
	is(t, *refusalOf(t, program, err), Refused{Code: "O2", Sentence: "the file has no function of that name; it has checksum, largest"})
	for code, load := range map[string]func() (*Program, error){
		"I1": func() (*Program, error) { return Load(nil, none) },
		"F3": func() (*Program, error) { return Load(slotsOf(t, loop), none) },
		"O1": func() (*Program, error) { return LoadELF([]byte{}, "", none) },
		"O3": func() (*Program, error) { return LoadELF(two, "", Declaration{Context: 16}) },
	} {
		program, err := load()
		is(t, refusalOf(t, program, err).Code, code)
	}
}

// The functions of a file, each with a name by which it is loaded, and of none.
func TestFunctions(t *testing.T) {
	two := readFile(t, twoObject)
	functions := must(ELFFunctions(two))(t)
	is(t, len(functions), 2)
	is(t, functions[0], Function{"checksum", ".text", 8})
	is(t, functions[1], Function{"largest", ".text", 11})
	for _, it := range functions {
		is(t, must(LoadELF(two, it.Name, Declaration{Context: 16}))(t).Slots(), int(it.Slots))
	}
	two[980], two[1004] = 0x10, 0x10 // neither is a function any more
	is(t, len(must(ELFFunctions(two))(t)), 0)
	for _, none := range [][]byte{nil, {}, two[:63]} {
		_, err := ELFFunctions(none)
		is(t, *refusalOf(t, nil, err), Refused{Code: "O1", Sentence: "the file has fewer than the 64 bytes of an ELF header"})
	}
}

// What a program is, as it was declared and as it is run, also of one that is closed.
func TestAbout(t *testing.T) {
	program, err := Load(slotsOf(t, read), Declaration{Context: 4, Held: 3})
	if err != nil || program.Close() != nil {
		t.Fatal(err)
	}
	is(t, [3]int{program.Context(), program.Held(), program.Slots()}, [3]int{4, 3, 2})
	is(t, strings.Count(Version(), "."), 2)
}

// Contexts that are shorter than was declared, and one that is longer.
func TestPadded(t *testing.T) {
	machine, shared, program := must(NewMachine(1))(t), must(NewShared(1, 1))(t), loaded(t, read, 4, 0)
	worker := must(shared.Open())(t)
	for length, exit := range []uint64{0, 1, 0x201, 0x30201, 0x4030201} {
		for _, run := range []func(*Program, []byte) (Report, error){machine.RunPadded, worker.RunPadded} {
			is(t, must(run(program, []byte{1, 2, 3, 4, 5}[:length]))(t).Exit, exit)
		}
	}
	_, err := machine.RunPadded(program, make([]byte, 5))
	is(t, errors.Is(err, ErrContext), true)
	program.Close()
	_, err = machine.RunPadded(program, nil)
	is(t, errors.Is(err, ErrClosed), true)
}

// A loop that can't be unrolled, with many branches that lead out of it: each is a line of a text that is longer than the first buffer.
func TestLongRefusal(t *testing.T) {
	const branches = 40
	slots := []byte{0xb7, 0, 0, 0, 0, 0, 0, 0} // r0 = 0
	add := func(code, registers byte, offset int16) {
		slots = append(slots, code, registers, byte(offset), byte(offset>>8), 0, 0, 0, 0)
	}
	for i := int16(0); i < branches; i++ {
		add(0x71, 0x12, 0)             // r2 = *(u8 *)r1
		add(0x15, 2, 2*(branches-i)-1) // if r2 == 0 goto exit
	}
	add(0x05, 0, -2*branches-1) // goto 1
	add(0x95, 0, 0)             // exit
	program, err := LoadUnrolled(slots, Declaration{Context: 1})
	why := refusalOf(t, program, err)
	is(t, why.Code, "F3")
	is(t, why.Slot, 2*branches+1)
	is(t, strings.Count(why.Lines, "\n"), branches)
	is(t, len(why.Lines) > 1024 && strings.HasSuffix(why.Lines, "\n"), true)
}

func TestLoads(t *testing.T) {
	machine := must(NewMachine(1))(t)
	defer machine.Close()
	exits := func(program *Program, err error) func(context []byte, exit uint64) {
		return func(context []byte, exit uint64) {
			t.Helper()
			is(t, must(machine.Run(must(program, err)(t), context))(t).Exit, exit)
			ends(t, program.Close(), nil)
		}
	}
	var words bytes.Buffer
	ends(t, binary.Write(&words, binary.LittleEndian, []uint32{1, 5, 3, 4}), nil)
	two, file := readFile(t, twoObject), readFile(t, loopObject)
	for _, load := range []func([]byte, string, Declaration) (*Program, error){LoadELF, LoadELFUnrolled} {
		exits(load(two, "checksum", Declaration{Context: 16}))(words.Bytes(), 13)
		exits(load(two, "largest", Declaration{Context: 16, Held: 64}))(words.Bytes(), 5)
		_, err := load(two, "largest", Declaration{Context: 4097})
		ends(t, err, ErrDeclaration)
	}
	for _, load := range []func([]byte, Declaration) (*Program, error){Load, LoadUnrolled} {
		exits(load(slotsOf(t, cell), Declaration{Held: 1}))(nil, 5)
		for _, outside := range []Declaration{{Context: 4097}, {Context: -1}, {Context: 1 << 32}, {Context: 4, Held: 65}, {Context: 4, Held: -1}} {
			_, err := load(slotsOf(t, read), outside)
			ends(t, err, ErrDeclaration)
		}
	}
	exits(LoadUnrolled(slotsOf(t, loop), Declaration{}))([]byte{}, 6)
	exits(LoadELFUnrolled(file, "bits", Declaration{Context: 1}))([]byte{0xb5}, 5)
	exits(LoadELFUnrolled(file, "", Declaration{Context: 1}))([]byte{0xb5}, 5)
	first := loaded(t, seven, 0, 0)
	second := must(first.Share())(t)
	ends(t, first.Close(), nil)
	exits(second, nil)(nil, 7)
}

// Each error is in words as the C header has it, but for those that only Go has.
func TestWords(t *testing.T) {
	header := string(readFile(t, "../../include/ebpf_host.h"))
	of := map[string]error{"DECLARATION": ErrDeclaration, "PAGES": ErrPages, "CONTEXT": ErrContext, "NO_MEMORY": ErrNoMemory, "KIND": ErrKind,
		"LENGTH": ErrLength, "NO_OBJECT": ErrNoObject, "WORKERS": ErrWorkers, "BUSY": ErrBusy}
	for name, err := range of {
		words := strings.TrimPrefix(err.Error(), "ebpfhost: ")
		is(t, strings.Contains(header, "case EBPF_"+name+": return \""+words+"\";"), true)
	}
	is(t, len(errorOf), len(of)+1)
	ends(t, failure(0), nil)
	ends(t, failure(5), ErrClosed)
	is(t, failure(12).Error(), "ebpfhost: unknown status 12")
}

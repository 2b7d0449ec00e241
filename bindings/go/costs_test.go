package ebpfhost

import "testing"

const batched = 64

// What a run takes, beside bindings/overhead.c in C.
func BenchmarkRun(b *testing.B) {
	machine, program, context := must(NewMachine(1))(b), loaded(b, read, 4, 0), make([]byte, 4)
	b.ResetTimer()
	for i := 0; i < b.N; i++ {
		if _, err := machine.Run(program, context); err != nil {
			b.Fatal(err)
		}
	}
}

func BenchmarkRunOfBatch(b *testing.B) {
	machine, program, contexts, reports := must(NewMachine(1))(b), loaded(b, read, 4, 0), make([]byte, 4*batched), make([]Report, batched)
	b.ResetTimer()
	for i := 0; i < b.N; i += batched {
		if _, err := machine.RunBatch(program, contexts, NoLimit, reports); err != nil {
			b.Fatal(err)
		}
	}
}

// No run allocates anything in Go.
func TestAllocations(t *testing.T) {
	machine, program, contexts, reports := must(NewMachine(1))(t), loaded(t, emit, 1, 0), make([]byte, batched), make([]Report, batched)
	output := make([]uint64, 1)
	is(t, testing.AllocsPerRun(100, func() { machine.Run(program, contexts[:1]) }), 0)
	is(t, testing.AllocsPerRun(100, func() { machine.RunWithin(program, contexts[:1], NoLimit, output) }), 0)
	is(t, testing.AllocsPerRun(100, func() { machine.RunBatch(program, contexts, NoLimit, reports) }), 0)
}

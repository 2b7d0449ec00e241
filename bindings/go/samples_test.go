package ebpfhost

import (
	"encoding/hex"
	"errors"
	"os"
	"testing"
)

// The programs of the tests, as hex.
const (
	// returns 7
	seven = "b7000000070000009500000000000000"
	// reads four bytes of the context
	read = "61100000000000009500000000000000"
	// emits the byte of the context and returns 7
	emit = "71110000000000008500000003000000b7000000070000009500000000000000"
	// takes a cell, reads back the 5 that it wrote there, and returns it; 0 if it gets none
	cell = "b701000000000000850000000100000015000500000000007a00000005000000" +
		"7906000000000000bf010000000000008500000002000000bf600000000000009500000000000000"
	// takes what is on the shelf of records, and gives it back
	fetch = "b701000001000000b70200000000000085000000040000001500020000000000" +
		"bf010000000000008500000002000000b7000000000000009500000000000000"
	// leaves a record with the byte of the context on the shelf of records, and gives back what was there
	leave = "7116000000000000b701000001000000850000000100000015000800000000007b60000000000000b701000001000000" +
		"bf0200000000000085000000040000001500020000000000bf010000000000008500000002000000b700000000000000" +
		"9500000000000000"
	// adds 2 and returns the sum after three turns of a loop
	loop = "b70000000000000007000000020000005500feff060000009500000000000000"
)

func slotsOf(t testing.TB, digits string) []byte {
	t.Helper()
	slots, err := hex.DecodeString(digits)
	if err != nil {
		t.Fatal(err)
	}
	return slots
}

// loaded is a program of these digits.
func loaded(t testing.TB, digits string, context, held int) *Program {
	t.Helper()
	return must(Load(slotsOf(t, digits), Declaration{Context: context, Held: held}))(t)
}

// must is the value of a call that doesn't fail.
func must[T any](value T, err error) func(testing.TB) T {
	return func(t testing.TB) T {
		t.Helper()
		if err != nil {
			t.Fatal(err)
		}
		return value
	}
}

// is checks what was got.
func is[T comparable](t testing.TB, got, want T) {
	t.Helper()
	if got != want {
		t.Errorf("got %v, not %v", got, want)
	}
}

// ends checks the error with which a call ended.
func ends(t testing.TB, got, want error) {
	t.Helper()
	if !errors.Is(got, want) {
		t.Errorf("ended with %v, not %v", got, want)
	}
}

func readFile(t testing.TB, path string) []byte {
	t.Helper()
	return must(os.ReadFile(path))(t)
}

package ebpfhost_test

import (
	"errors"
	"fmt"
	"log"

	"cikpodun.example/ebpfhost"
)

func Example() {
	slots := []byte{0x71, 0x10, 0, 0, 0, 0, 0, 0, 0x95, 0, 0, 0, 0, 0, 0, 0} // returns the first byte of the context
	packet := []byte{23: 0, 0: 0x45}
	program, err := ebpfhost.Load(slots, ebpfhost.Declaration{Context: len(packet)})
	if err != nil {
		log.Fatal(err)
	}
	defer program.Close()
	machine, err := ebpfhost.NewMachine(16)
	if err != nil {
		log.Fatal(err)
	}
	defer machine.Close()
	report, err := machine.Run(program, packet)
	if err != nil {
		log.Fatal(err)
	}
	fmt.Println(report.Exit)
	// Output: 69
}

func ExampleRefused() {
	slots := []byte{0x61, 0x10, 0, 0, 0, 0, 0, 0, 0x95, 0, 0, 0, 0, 0, 0, 0} // reads four bytes of the context
	_, err := ebpfhost.Load(slots, ebpfhost.Declaration{Context: 3})
	var why *ebpfhost.Refused
	if errors.As(err, &why) {
		fmt.Println(why.Code, why.Slot)
	}
	// Output: V8 0
}

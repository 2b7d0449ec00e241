module cikpodun.example/ebpfhost

go 1.19

//! Bytes and their outcomes: the table of `super`.

// What a row shows, how many exits come first, the bytes after them, and how many instructions all of it is or why it is
// no program.
pub(crate) const CASES: &str = "\
# an exit has its opcode alone
exit | 0 | 9500000000000000 | 1
exit with an immediate | 0 | 9500000001000000 | slot 0 is refused with UnusedFieldSet
exit with an offset | 0 | 9500010000000000 | slot 0 is refused with UnusedFieldSet
exit with a register | 0 | 9501000000000000 | slot 0 is refused with UnusedFieldSet
# registers are refused before unused fields
a move to register 11 | 0 | b70b000000000000 | slot 0 is refused with UnknownRegister
a move with an unused register 11 | 0 | b7b0000000000000 | slot 0 is refused with UnknownRegister
a move with an unused register 1 | 0 | b710000000000000 | slot 0 is refused with UnusedFieldSet
# a sign-extending move is refused by its width
a move of 8 bits | 0 | bf10080000000000 | 1
a move of 32 bits at 64 bits | 0 | bf10200000000000 | 1
a move of 32 bits at 32 bits | 0 | bc10200000000000 | slot 0 is refused with UndefinedField
a move of 3 bits | 0 | bf10030000000000 | slot 0 is refused with UndefinedField
a move of 3 bits with an immediate | 0 | bf10030001000000 | slot 0 is refused with UnusedFieldSet
# bytes that are no whole slots are refused at slot 0
no bytes | 0 |  | slot 0 is refused with WrongLength
1 byte | 0 | 95 | slot 0 is refused with WrongLength
2 bytes | 0 | 9500 | slot 0 is refused with WrongLength
3 bytes | 0 | 950000 | slot 0 is refused with WrongLength
4 bytes | 0 | 95000000 | slot 0 is refused with WrongLength
5 bytes | 0 | 9500000000 | slot 0 is refused with WrongLength
6 bytes | 0 | 950000000000 | slot 0 is refused with WrongLength
7 bytes | 0 | 95000000000000 | slot 0 is refused with WrongLength
# the lowest slot at fault is named
the second of three | 0 | 95000000000000009501000000000000ff00000000000000 | slot 1 is refused with UnusedFieldSet
the eighth | 7 | 9501000000000000 | slot 7 is refused with UnusedFieldSet
# a program has 4096 slots at most
4096 exits | 4096 |  | 4096
4097 exits | 4097 |  | slot 4096 is refused with ProgramTooLong
# parts of a slot
a register that is read in a slot with unused fields | 0 | 04a3feff01000080 | slot 0 is refused with UnusedFieldSet
an atomic is left out | 0 | c300000000000000 | slot 0 is refused with UnsupportedForm
a jump without a condition has no register | 0 | 0d00000000000000 | slot 0 is refused with UnknownOpcode
# fields of a form
a wide instruction uses dst and imm | 0 | 18010000010000000000000000000000 | 1
a wide instruction uses no src | 0 | 18710000010000000000000000000000 | slot 0 is refused with UnusedFieldSet
a wide instruction uses no offset | 0 | 18010100010000000000000000000000 | slot 0 is refused with UnusedFieldSet
a jump without an offset leaves the rest zero | 0 | 0500000000000000 | 1
a wide instruction with src 6 is left out | 0 | 18610000010000000000000000000000 | slot 0 is refused with UnsupportedForm
a wide instruction with src 7 is not left out | 0 | 1870000000000000 | slot 0 is refused with UnusedFieldSet
there is no swap of 1 bit | 0 | d701000001000000 | slot 0 is refused with UndefinedField
a wide instruction has a second slot | 0 | 1801000001000000 | slot 0 is refused with MissingSecondSlot
an exit has none | 0 | 9500000000000000 | 1
the second slot is no wide instruction itself | 0 | 18010000010000001861000001000000 | slot 0 is refused with BadSecondSlot
# operations that a field chooses
a move of 8 bits at 32 bits | 0 | bc00080000000000 | 1
a move of 16 bits at 32 bits | 0 | bc00100000000000 | 1
a move of 32 bits at 32 bits | 0 | bc00200000000000 | slot 0 is refused with UndefinedField
a move of 8 bits at 64 bits | 0 | bf00080000000000 | 1
a move of 16 bits at 64 bits | 0 | bf00100000000000 | 1
a move of 32 bits at 64 bits | 0 | bf00200000000000 | 1
a move of 64 bits at 64 bits | 0 | bf00400000000000 | slot 0 is refused with UndefinedField
a move of 8 bits at 64 bits with an immediate | 0 | bf00080001000000 | slot 0 is refused with UnusedFieldSet
a move of 8 bits at 64 bits from an immediate | 0 | b700080000000000 | slot 0 is refused with UnusedFieldSet
a division at 32 bits with offset 1 | 0 | 3400010005000000 | 1
a division at 32 bits with offset 2 | 0 | 3400020005000000 | slot 0 is refused with UndefinedField
a remainder at 64 bits with offset 1 | 0 | 9f00010000000000 | 1
a remainder at 64 bits with offset 2 | 0 | 9f00020000000000 | slot 0 is refused with UndefinedField
a remainder at 64 bits with offset 2 and an unused immediate | 0 | 9f00020005000000 | slot 0 is refused with UnusedFieldSet
a division at 32 bits with offset 255 | 0 | 3c00ff0000000000 | slot 0 is refused with UndefinedField
a remainder at 64 bits with offset 255 | 0 | 9700ff0005000000 | slot 0 is refused with UndefinedField
a swap to little-endian of 16 bits | 0 | d400000010000000 | 1
a swap to little-endian of 32 bits | 0 | d400000020000000 | 1
a swap to little-endian of 64 bits | 0 | d400000040000000 | 1
a swap to big-endian of 16 bits | 0 | dc00000010000000 | 1
a swap to big-endian of 32 bits | 0 | dc00000020000000 | 1
a swap to big-endian of 64 bits | 0 | dc00000040000000 | 1
a swap always of 16 bits | 0 | d700000010000000 | 1
a swap always of 32 bits | 0 | d700000020000000 | 1
a swap always of 64 bits | 0 | d700000040000000 | 1
a swap to little-endian of 8 bits | 0 | d400000008000000 | slot 0 is refused with UndefinedField
a swap to big-endian of 48 bits | 0 | dc00000030000000 | slot 0 is refused with UndefinedField
a swap always of 17 bits | 0 | d700000011000000 | slot 0 is refused with UndefinedField
a swap always of 128 bits | 0 | d700000080000000 | slot 0 is refused with UndefinedField
a swap to little-endian of 16 bits with offset 16 | 0 | d400100010000000 | slot 0 is refused with UnusedFieldSet
a swap of no order of 16 bits | 0 | df00000010000000 | slot 0 is refused with UnknownOpcode
# no high byte of a field is passed over
a move of 8 + 256 bits | 0 | bf00080100000000 | slot 0 is refused with UndefinedField
a division with offset 1 + 256 | 0 | 3700010100000000 | slot 0 is refused with UndefinedField
a swap of 16 + 256 bits | 0 | d400000010010000 | slot 0 is refused with UndefinedField
a swap of 16 + 2^24 bits | 0 | dc00000010000001 | slot 0 is refused with UndefinedField
# registers end with 10, in each class
opcode 18 with registers 0b | 0 | 180b000000000000 | slot 0 is refused with UnknownRegister
opcode 18 with registers b0 | 0 | 18b0000000000000 | slot 0 is refused with UnknownRegister
opcode 18 with registers bb | 0 | 18bb000000000000 | slot 0 is refused with UnknownRegister
opcode 18 with registers 0f | 0 | 180f000000000000 | slot 0 is refused with UnknownRegister
opcode 18 with registers f0 | 0 | 18f0000000000000 | slot 0 is refused with UnknownRegister
opcode 18 with registers ff | 0 | 18ff000000000000 | slot 0 is refused with UnknownRegister
opcode 61 with registers 0b | 0 | 610b000000000000 | slot 0 is refused with UnknownRegister
opcode 61 with registers b0 | 0 | 61b0000000000000 | slot 0 is refused with UnknownRegister
opcode 61 with registers bb | 0 | 61bb000000000000 | slot 0 is refused with UnknownRegister
opcode 61 with registers 0f | 0 | 610f000000000000 | slot 0 is refused with UnknownRegister
opcode 61 with registers f0 | 0 | 61f0000000000000 | slot 0 is refused with UnknownRegister
opcode 61 with registers ff | 0 | 61ff000000000000 | slot 0 is refused with UnknownRegister
opcode 62 with registers 0b | 0 | 620b000000000000 | slot 0 is refused with UnknownRegister
opcode 62 with registers b0 | 0 | 62b0000000000000 | slot 0 is refused with UnknownRegister
opcode 62 with registers bb | 0 | 62bb000000000000 | slot 0 is refused with UnknownRegister
opcode 62 with registers 0f | 0 | 620f000000000000 | slot 0 is refused with UnknownRegister
opcode 62 with registers f0 | 0 | 62f0000000000000 | slot 0 is refused with UnknownRegister
opcode 62 with registers ff | 0 | 62ff000000000000 | slot 0 is refused with UnknownRegister
opcode 63 with registers 0b | 0 | 630b000000000000 | slot 0 is refused with UnknownRegister
opcode 63 with registers b0 | 0 | 63b0000000000000 | slot 0 is refused with UnknownRegister
opcode 63 with registers bb | 0 | 63bb000000000000 | slot 0 is refused with UnknownRegister
opcode 63 with registers 0f | 0 | 630f000000000000 | slot 0 is refused with UnknownRegister
opcode 63 with registers f0 | 0 | 63f0000000000000 | slot 0 is refused with UnknownRegister
opcode 63 with registers ff | 0 | 63ff000000000000 | slot 0 is refused with UnknownRegister
opcode 04 with registers 0b | 0 | 040b000000000000 | slot 0 is refused with UnknownRegister
opcode 04 with registers b0 | 0 | 04b0000000000000 | slot 0 is refused with UnknownRegister
opcode 04 with registers bb | 0 | 04bb000000000000 | slot 0 is refused with UnknownRegister
opcode 04 with registers 0f | 0 | 040f000000000000 | slot 0 is refused with UnknownRegister
opcode 04 with registers f0 | 0 | 04f0000000000000 | slot 0 is refused with UnknownRegister
opcode 04 with registers ff | 0 | 04ff000000000000 | slot 0 is refused with UnknownRegister
opcode 05 with registers 0b | 0 | 050b000000000000 | slot 0 is refused with UnknownRegister
opcode 05 with registers b0 | 0 | 05b0000000000000 | slot 0 is refused with UnknownRegister
opcode 05 with registers bb | 0 | 05bb000000000000 | slot 0 is refused with UnknownRegister
opcode 05 with registers 0f | 0 | 050f000000000000 | slot 0 is refused with UnknownRegister
opcode 05 with registers f0 | 0 | 05f0000000000000 | slot 0 is refused with UnknownRegister
opcode 05 with registers ff | 0 | 05ff000000000000 | slot 0 is refused with UnknownRegister
opcode 16 with registers 0b | 0 | 160b000000000000 | slot 0 is refused with UnknownRegister
opcode 16 with registers b0 | 0 | 16b0000000000000 | slot 0 is refused with UnknownRegister
opcode 16 with registers bb | 0 | 16bb000000000000 | slot 0 is refused with UnknownRegister
opcode 16 with registers 0f | 0 | 160f000000000000 | slot 0 is refused with UnknownRegister
opcode 16 with registers f0 | 0 | 16f0000000000000 | slot 0 is refused with UnknownRegister
opcode 16 with registers ff | 0 | 16ff000000000000 | slot 0 is refused with UnknownRegister
opcode 07 with registers 0b | 0 | 070b000000000000 | slot 0 is refused with UnknownRegister
opcode 07 with registers b0 | 0 | 07b0000000000000 | slot 0 is refused with UnknownRegister
opcode 07 with registers bb | 0 | 07bb000000000000 | slot 0 is refused with UnknownRegister
opcode 07 with registers 0f | 0 | 070f000000000000 | slot 0 is refused with UnknownRegister
opcode 07 with registers f0 | 0 | 07f0000000000000 | slot 0 is refused with UnknownRegister
opcode 07 with registers ff | 0 | 07ff000000000000 | slot 0 is refused with UnknownRegister
# an opcode goes before the registers, and they before the fields
no instruction | 0 | ffbb010001000000 | slot 0 is refused with UnknownOpcode
no instruction either | 0 | 99bb010001000000 | slot 0 is refused with UnknownOpcode
an atomic | 0 | dbbb010001000000 | slot 0 is refused with UnsupportedForm
a call through a register | 0 | 8dbb010001000000 | slot 0 is refused with UnsupportedForm
a call within the program | 0 | 851b010001000000 | slot 0 is refused with UnsupportedForm
a wide instruction that is left out | 0 | 186b010001000000 | slot 0 is refused with UnsupportedForm
an exit with registers that there are | 0 | 950a010001000000 | slot 0 is refused with UnusedFieldSet
a move with registers that there are | 0 | bf0a030001000000 | slot 0 is refused with UnusedFieldSet
# kinds of calls and of wide instructions
a call with src 0 | 0 | 8500000000000000 | 1
a call with src 1 | 0 | 8510000000000000 | slot 0 is refused with UnsupportedForm
a call with src 2 | 0 | 8520000000000000 | slot 0 is refused with UnsupportedForm
a call with src 3 | 0 | 8530000000000000 | slot 0 is refused with UnusedFieldSet
a call with src 4 | 0 | 8540000000000000 | slot 0 is refused with UnusedFieldSet
a call with src 5 | 0 | 8550000000000000 | slot 0 is refused with UnusedFieldSet
a call with src 6 | 0 | 8560000000000000 | slot 0 is refused with UnusedFieldSet
a call with src 7 | 0 | 8570000000000000 | slot 0 is refused with UnusedFieldSet
a call with src 8 | 0 | 8580000000000000 | slot 0 is refused with UnusedFieldSet
a call with src 9 | 0 | 8590000000000000 | slot 0 is refused with UnusedFieldSet
a call with src 10 | 0 | 85a0000000000000 | slot 0 is refused with UnusedFieldSet
a call with src 11 | 0 | 85b0000000000000 | slot 0 is refused with UnknownRegister
a call with src 12 | 0 | 85c0000000000000 | slot 0 is refused with UnknownRegister
a call with src 13 | 0 | 85d0000000000000 | slot 0 is refused with UnknownRegister
a call with src 14 | 0 | 85e0000000000000 | slot 0 is refused with UnknownRegister
a call with src 15 | 0 | 85f0000000000000 | slot 0 is refused with UnknownRegister
a wide instruction with src 0 | 0 | 1800000000000000 | slot 0 is refused with MissingSecondSlot
a wide instruction with src 1 | 0 | 1810000000000000 | slot 0 is refused with UnsupportedForm
a wide instruction with src 2 | 0 | 1820000000000000 | slot 0 is refused with UnsupportedForm
a wide instruction with src 3 | 0 | 1830000000000000 | slot 0 is refused with UnsupportedForm
a wide instruction with src 4 | 0 | 1840000000000000 | slot 0 is refused with UnsupportedForm
a wide instruction with src 5 | 0 | 1850000000000000 | slot 0 is refused with UnsupportedForm
a wide instruction with src 6 | 0 | 1860000000000000 | slot 0 is refused with UnsupportedForm
a wide instruction with src 7 | 0 | 1870000000000000 | slot 0 is refused with UnusedFieldSet
a wide instruction with src 8 | 0 | 1880000000000000 | slot 0 is refused with UnusedFieldSet
a wide instruction with src 9 | 0 | 1890000000000000 | slot 0 is refused with UnusedFieldSet
a wide instruction with src 10 | 0 | 18a0000000000000 | slot 0 is refused with UnusedFieldSet
a wide instruction with src 11 | 0 | 18b0000000000000 | slot 0 is refused with UnknownRegister
a wide instruction with src 12 | 0 | 18c0000000000000 | slot 0 is refused with UnknownRegister
a wide instruction with src 13 | 0 | 18d0000000000000 | slot 0 is refused with UnknownRegister
a wide instruction with src 14 | 0 | 18e0000000000000 | slot 0 is refused with UnknownRegister
a wide instruction with src 15 | 0 | 18f0000000000000 | slot 0 is refused with UnknownRegister
# second halves of wide instructions
a second half of zeros | 0 | 18030000020000000000000000000000 | 1
a second half with 1 in the first byte of the immediate | 0 | 18030000020000000000000001000000 | 1
a second half with ff in the second | 0 | 18030000020000000000000000ff0000 | 1
a second half with ff in the third | 0 | 1803000002000000000000000000ff00 | 1
a second half with ff in the fourth | 0 | 180300000200000000000000000000ff | 1
a second half with opcode 01 | 0 | 18030000020000000100000000000000 | slot 0 is refused with BadSecondSlot
a second half with opcode 18 | 0 | 18030000020000001800000000000000 | slot 0 is refused with BadSecondSlot
a second half with opcode 95 | 0 | 18030000020000009500000000000000 | slot 0 is refused with BadSecondSlot
a second half with opcode ff | 0 | 1803000002000000ff00000000000000 | slot 0 is refused with BadSecondSlot
a second half with dst 1 | 0 | 18030000020000000001000000000000 | slot 0 is refused with BadSecondSlot
a second half with src 1 | 0 | 18030000020000000010000000000000 | slot 0 is refused with BadSecondSlot
a second half with dst 11 | 0 | 1803000002000000000b000000000000 | slot 0 is refused with BadSecondSlot
a second half with offset 1 | 0 | 18030000020000000000010000000000 | slot 0 is refused with BadSecondSlot
a second half with offset 256 | 0 | 18030000020000000000000100000000 | slot 0 is refused with BadSecondSlot
a second half with all fields | 0 | 180300000200000095bb010001000000 | slot 0 is refused with BadSecondSlot
an unused field goes before the second half | 0 | 18030100020000009500000001000000 | slot 0 is refused with UnusedFieldSet
# the 4096 slots of a program
as many as there may be | 4096 |  | 4096
one more | 4097 |  | slot 4096 is refused with ProgramTooLong
a wide one that ends in time | 4094 | 18030000020000000000000001000000 | 4095
a wide one that ends too late | 4095 | 18030000020000000000000001000000 | slot 4096 is refused with ProgramTooLong
a bad one that ends too late | 4095 | 18030000020000009500000001000000 | slot 4095 is refused with BadSecondSlot
half a wide one | 4095 | 1803000002000000 | slot 4095 is refused with MissingSecondSlot
a wide one after the end | 4096 | 18030000020000000000000001000000 | slot 4096 is refused with ProgramTooLong";

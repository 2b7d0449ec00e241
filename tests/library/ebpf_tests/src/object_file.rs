//! Object files that clang made, whole and damaged. What is expected is what llvm-readelf and llvm-objdump print of them, and the
//! numbers of lines and columns what the compiler wrote as DWARF, before it was taken out.

mod objects;

use crate::object_file::objects::{CALL, SECTION, TABLE, TWO};
use crate::programs::{bytes_of, column, holds, is_text};
use ebpf_object_file::function::{function_named, only_function};
use ebpf_object_file::functions::functions_of;
use ebpf_object_file::object_fault::ObjectFault;
use ebpf_object_file::source::lines_of;
use std::alloc::Global;
use std::process::Abort;
use std::test::*;

// The object, the function, its section, first byte and size, and its bytes.
const FOUND: &str = "\
two | checksum | 2 0 64 | 611204000000000061100000000000000f2000000000000061120800000000000f2000000000000061110c00000000000f100000000000009500000000000000
section | second | 3 56 40 | 711001000000000018010000efcdab8900000000674523010f100000000000009500000000000000
section | third | 5 0 40 | 7111020000000000b7000000090000001601010000000000b7000000070000009500000000000000
call | twice | 2 80 40 | bf200000000000002f1000000000000077010000030000000f100000000000009500000000000000";

// The object, the function, `-` for the only one, and why it is no program by itself.
const REFUSED: &str = "\
table | weigh | slot 3 uses weights, a table outside the function: pass it in the context, or pack it into a number
table | - | slot 3 uses weights, a table outside the function: pass it in the context, or pack it into a number
section | first | slot 0 uses counter, a variable outside the function: pass it in the context; if it is constant, declare it const and leave volatile out
call | entry | slot 3 calls twice, a function of the file: make it static inline, and compile with -O2
call | far | slot 1 uses outside, which is not in the file: define it as static inline, and compile with -O2
two | - | the file has more than one function: name one of checksum, largest
two | larges | the file has no function of that name; it has checksum, largest
two | largest_ | the file has no function of that name; it has checksum, largest
call | outside | the file has no function of that name; it has twice, entry, far";

// What is changed in the object two: an offset and the bytes that are written there, with a comma between several; and why there
// is then no function largest, or no only one if the row begins with `-`.
const DAMAGED: &str = "\
0 00 | the file is not an ELF file
4 01 | the file is not a 64-bit little-endian ELF file: compile with -target bpfel
5 02 | the file is not a 64-bit little-endian ELF file: compile with -target bpfel
6 00 | the file is not a 64-bit little-endian ELF file: compile with -target bpfel
16 0200 | the file is not relocatable: compile with -c
18 3e00 | the file is for a machine other than eBPF: compile with -target bpfel
58 4100 | the file's section headers do not have 64 bytes each
40 ffffffffffffffff | the section headers reach beyond the end of the file
60 ffff | the section headers reach beyond the end of the file
60 0000 | the section of section names is not in the file
62 0800 | the section of section names is not in the file
1544 ffffffffffffffff | a section reaches beyond the end of the file
1552 31070000 | a section reaches beyond the end of the file
1844 00000000 | the file has no symbol table
1780 02000000 | the file has more than one symbol table
1880 08000000 | the section of symbol names is not in the file
1880 ffffffff | the section of symbol names is not in the file
1016 5700000000000000 | the function's bytes are not whole slots of its section
1016 6000000000000000 | the function's bytes are not whole slots of its section
1016 0000000000000000 | the function's bytes are not whole slots of its section
1008 f8ffffffffffffff | the function's bytes are not whole slots of its section
1716 04000000, 1756 02000000 | the relocations of the function's section have addends
1756 02000000, 1780 09000000, 1820 02000000 | the function's section has more than one section of relocations
1008 0000000000000000, 1016 0800000000000000, 64 8510000002000000 | slot 0 calls (no name), a function of the file: make it static inline, and compile with -O2
- 1316 1b | the file has more than one function: name one of checksum, ?argest
- 980 10, 1004 10 | the file has no function
- 980 10, 1016 5700000000000000 | the function's bytes are not whole slots of its section";

// The object, the function, a byte from its first, and the line of C that holds there.
const LINES: &str = "\
two | checksum | 0 | ./two.c:6:10: sum += words[i];
two | checksum | 8 | ./two.c:6:10: sum += words[i];
two | checksum | 16 | ./two.c:6:7: sum += words[i];
two | checksum | 56 | ./two.c:7:2: return sum;
two | largest | 0 | ./two.c:14:7: if (words[i] > most)
two | largest | 8 | ./two.c:12:13: u64 most = words[0];
two | largest | 24 | ./two.c:14:7: if (words[i] > most)
two | largest | 80 | ./two.c:16:2: return most;
section | second | 0 | ./section.c:10:9: return ctx[1] + 0x123456789abcdefULL;
section | second | 16 | ./section.c:10:9: return ctx[1] + 0x123456789abcdefULL;
section | second | 24 | ./section.c:10:16: return ctx[1] + 0x123456789abcdefULL;
section | third | 0 | ./section.c:14:9: return ctx[2] ? 7 : 9;
section | third | 32 | ./section.c:14:2: return ctx[2] ? 7 : 9;";

// What is changed in the object two, a section, and why its lines can't be read.
const NO_LINES: &str = "\
0 00 | 2 | the file is not an ELF file
0 7f | 8 | the file has no section of that number
216 00 | 2 | the strings of .BTF cannot be read
236 ffffffff | 2 | the strings of .BTF cannot be read
544 00 | 2 | the lines of .BTF.ext cannot be read
564 ffffff7f | 2 | the lines of .BTF.ext cannot be read
1520 ffffffff | 2 | the name of the function's section has no end, or more than 255 bytes";

// The bytes of an object.
pub(crate) fn object(rt: &impl Abort, alloc: Global, name: &str) -> Vec<u8> {
    let digits = match name {
        "two" => TWO,
        "table" => TABLE,
        "call" => CALL,
        "section" => SECTION,
        _ => "",
    };
    bytes_of(rt, alloc, digits)
}

// The bytes of the object two, with changes.
fn damaged(rt: &impl Abort, alloc: Global, changes: &str) -> Vec<u8> {
    let mut file = object(rt, alloc, "two");
    for change in changes.split(", ") {
        let (at, digits) = change.split_once(" ").expect(rt, "no bytes");
        let at = at.parse::<usize>().expect(rt, "no offset");
        let new = bytes_of(rt, alloc, digits);
        for index in 0..new.len() {
            assert!(rt; at + index < file.len(), "{changes}");
            file[at + index] = new[index];
        }
    }
    file
}

// The sentence of a fault.
fn sentence(rt: &impl Abort, alloc: Global, fault: ObjectFault<'_>) -> String {
    format!(in alloc; "{fault}").expect(rt, "out of memory")
}

fn is_found(rt: &impl Abort, alloc: Global, row: &str) {
    let (name, columns) = column(rt, row);
    let (wanted, columns) = column(rt, columns);
    let (place, digits) = column(rt, columns);
    let file = object(rt, alloc, name);
    let function = function_named(&file, wanted.as_bytes())
        .ok()
        .expect(rt, "it is refused");
    let place_of = function.place;
    let section = place_of.section;
    let from = place_of.from;
    let size = place_of.size;
    let got = format!(in alloc; "{section} {from} {size}").expect(rt, "out of memory");
    is_text(rt, row, got.as_str(), place);
    let code = bytes_of(rt, alloc, digits);
    holds(rt, row, function.code == code.as_slice());
}

#[test]
fn a_function_has_its_place_and_its_bytes(rt: HostRuntime) {
    for row in FOUND.lines() {
        is_found(&rt, rt.alloc(), row);
    }
}

fn is_refused(rt: &impl Abort, alloc: Global, row: &str) {
    let (name, columns) = column(rt, row);
    let (wanted, expected) = column(rt, columns);
    let file = object(rt, alloc, name);
    let refused = if wanted == "-" {
        only_function(&file).err()
    } else {
        function_named(&file, wanted.as_bytes()).err()
    };
    let fault = refused.expect(rt, "it is taken");
    let got = sentence(rt, alloc, fault);
    is_text(rt, row, got.as_str(), expected);
}

#[test]
fn what_needs_another_part_of_the_file_is_refused(rt: HostRuntime) {
    for row in REFUSED.lines() {
        is_refused(&rt, rt.alloc(), row);
    }
}

fn has_its_fault(rt: &impl Abort, alloc: Global, row: &str) {
    let (changes, expected) = column(rt, row);
    let refused = match changes.strip_prefix("- ") {
        Some(changes) => {
            let file = damaged(rt, alloc, changes);
            let fault = only_function(&file).err().expect(rt, "it is taken");
            sentence(rt, alloc, fault)
        }
        None => {
            let file = damaged(rt, alloc, changes);
            let fault = function_named(&file, b"largest").err().expect(rt, "it is taken");
            sentence(rt, alloc, fault)
        }
    };
    is_text(rt, row, refused.as_str(), expected);
}

#[test]
fn a_damaged_file_has_its_fault(rt: HostRuntime) {
    for row in DAMAGED.lines() {
        has_its_fault(&rt, rt.alloc(), row);
    }
}

#[test]
fn a_file_that_is_cut_is_refused(rt: HostRuntime) {
    let file = object(&rt, rt.alloc(), "two");
    for size in 0..file.len() {
        let cut = &file[..size];
        holds(&rt, "it is taken", function_named(cut, b"largest").is_err());
        holds(&rt, "it has lines", lines_of(cut, 2).is_err());
    }
}

#[test]
fn a_name_has_at_most_255_bytes(rt: HostRuntime) {
    let file = object(&rt, rt.alloc(), "two");
    let name = [b'a'; 256];
    let short = function_named(&file, &name[..255]).err().expect(&rt, "it is taken");
    holds(&rt, "255 bytes", matches!(short, ObjectFault::NoFunction(_)));
    let long = function_named(&file, &name).err().expect(&rt, "it is taken");
    let got = sentence(&rt, rt.alloc(), long);
    is_text(&rt, "256 bytes", got.as_str(), "the function's name has more than 255 bytes");
}

#[test]
fn the_functions_are_listed_in_the_order_of_the_table(rt: HostRuntime) {
    let file = object(&rt, rt.alloc(), "call");
    let functions = functions_of(&file).ok().expect(&rt, "it is refused");
    let first = functions.next(0).expect(&rt, "it has none");
    holds(&rt, "twice", first.number == 2 && first.name.bytes == b"twice".as_slice());
    let next = functions.next(3).expect(&rt, "it has one");
    holds(&rt, "entry", next.number == 3 && next.name.bytes == b"entry".as_slice());
    holds(&rt, "far is the last", functions.next(5).is_none());
}

#[test]
fn an_entry_has_a_name_a_section_and_slots(rt: HostRuntime) {
    let file = object(&rt, rt.alloc(), "section");
    let functions = functions_of(&file).ok().expect(&rt, "it is refused");
    holds(&rt, "symbols", functions.symbol_count() == 8);
    holds(&rt, "data", functions.entry(5).is_none());
    let third = functions.entry(7).expect(&rt, "it is none");
    holds(&rt, "third", third.name.bytes == b"third".as_slice() && third.section.bytes == b"prog/b".as_slice());
    holds(&rt, "its slots", third.slots == 5);
}

fn has_its_line(rt: &impl Abort, alloc: Global, row: &str) {
    let (name, columns) = column(rt, row);
    let (wanted, columns) = column(rt, columns);
    let (byte, expected) = column(rt, columns);
    let byte = byte.parse::<u64>().expect(rt, "no byte");
    let file = object(rt, alloc, name);
    let function = function_named(&file, wanted.as_bytes())
        .ok()
        .expect(rt, "it is refused");
    let from = function.place.from;
    let lines = lines_of(&file, function.place.section)
        .ok()
        .expect(rt, "they can't be read")
        .expect(rt, "it has none");
    let line = lines.at(from, from + byte).expect(rt, "none holds");
    let source = lines.source(line);
    let path = String::from_utf8_lossy(alloc, source.file).expect(rt, "out of memory");
    let text = String::from_utf8_lossy(alloc, source.text).expect(rt, "out of memory");
    let number = source.line;
    let at = source.column;
    let got = format!(in alloc; "{path}:{number}:{at}: {text}").expect(rt, "out of memory");
    is_text(rt, row, got.as_str(), expected);
}

#[test]
fn a_byte_of_a_function_has_its_line(rt: HostRuntime) {
    for row in LINES.lines() {
        has_its_line(&rt, rt.alloc(), row);
    }
}

#[test]
fn each_slot_has_the_line_of_its_first_byte(rt: HostRuntime) {
    let file = object(&rt, rt.alloc(), "two");
    let lines = lines_of(&file, 2).ok().expect(&rt, "they can't be read");
    let lines = lines.expect(&rt, "it has none");
    let mut of_slots = [None; 12];
    lines.at_slots(64, &mut of_slots);
    for slot in 0..12 {
        let line = of_slots[slot].expect(&rt, "none holds");
        let at = lines.at(64, 64 + 8 * slot as u64).expect(&rt, "none holds");
        holds(&rt, "it has another offset", line.offset == at.offset);
        holds(&rt, "it has another line", line.line == at.line);
        holds(&rt, "it has another column", line.column == at.column);
    }
    // After the function's last slot the last line holds on.
    let last = of_slots[10].expect(&rt, "none holds");
    holds(&rt, "it is another line", last.line == 16 && last.column == 2);
}

fn has_no_lines(rt: &impl Abort, alloc: Global, row: &str) {
    let (changes, columns) = column(rt, row);
    let (section, expected) = column(rt, columns);
    let section = section.parse::<u16>().expect(rt, "no section");
    let file = damaged(rt, alloc, changes);
    let fault = lines_of(&file, section).err().expect(rt, "they are read");
    let got = format!(in alloc; "{fault}").expect(rt, "out of memory");
    is_text(rt, row, got.as_str(), expected);
}

#[test]
fn damaged_lines_have_their_fault(rt: HostRuntime) {
    for row in NO_LINES.lines() {
        has_no_lines(&rt, rt.alloc(), row);
    }
}

#[test]
fn a_file_without_the_table_has_no_lines(rt: HostRuntime) {
    // The name of .BTF is another one.
    let file = damaged(&rt, rt.alloc(), "1584 00000000");
    let lines = lines_of(&file, 2).ok().expect(&rt, "they can't be read");
    holds(&rt, "it has lines", lines.is_none());
    // No line is of the section of the lines.
    let file = object(&rt, rt.alloc(), "two");
    let lines = lines_of(&file, 3).ok().expect(&rt, "they can't be read");
    holds(&rt, "it has lines", lines.is_none());
}

//! Programs to which the system does not answer some call as it should. The numbers are those of x86-64 Linux.

use std::ffi::{c_int, c_ulong, c_void};
use std::os::unix::process::CommandExt;
use std::process::Command;

pub const WRITE: u32 = 1;
pub const FLOCK: u32 = 73;
pub const FSYNC: u32 = 74;
pub const RENAME: u32 = 82;
pub const UNLINK: u32 = 87;
pub const FCHMOD: u32 = 91;
pub const FCHOWN: u32 = 93;
pub const EXIT_GROUP: u32 = 231;
pub const OPENAT: u32 = 257;
pub const GETRANDOM: u32 = 318;

/// The bit of the third argument of openat that asks for a new file.
pub const CREATE: u32 = 0o100;

pub const NOT_PERMITTED: u32 = 1;
pub const INPUT_OUTPUT: u32 = 5;
pub const READ_ONLY: u32 = 30;

/// Which calls are meant of a number: by a bit or by the value of an argument, counted from 0.
#[derive(Clone, Copy)]
pub enum Which {
    All,
    WithBits(u32, u32),
    WithValue(u32, u32),
}

/// What becomes of the program.
#[derive(Clone, Copy)]
pub enum Answer {
    /// The call fails with this error.
    Error(u32),
    /// The call kills it, as the signal 9 would.
    Death,
}

/// An instruction of a filter of system calls.
#[repr(C)]
struct Instruction(u16, u8, u8, u32);

#[repr(C)]
struct Filter(u16, *const Instruction);

const LOAD: u16 = 0x20;
const IF_EQUAL: u16 = 0x15;
const IF_BITS: u16 = 0x45;
const RETURN: u16 = 0x06;
const ALLOWED: u32 = 0x7fff_0000;

fn filter(call: u32, which: Which, answer: Answer) -> Vec<Instruction> {
    let answer = match answer {
        Answer::Error(number) => 0x0005_0000 | number,
        Answer::Death => 0x8000_0000,
    };
    // The arguments stand after the number, the architecture and the address, each in eight bytes.
    let test = match which {
        Which::All => vec![],
        Which::WithBits(place, bits) => vec![(LOAD, 16 + 8 * place), (IF_BITS, bits)],
        Which::WithValue(place, value) => vec![(LOAD, 16 + 8 * place), (IF_EQUAL, value)],
    };
    let tests = [vec![(LOAD, 0), (IF_EQUAL, call)], test].concat();
    let count = tests.len();
    let mut program: Vec<Instruction> = Vec::new();
    for (place, (code, value)) in tests.into_iter().enumerate() {
        // A test that fails jumps to the last instruction.
        let jump = if code == LOAD { 0 } else { count - place };
        program.push(Instruction(code, 0, jump as u8, value));
    }
    program.push(Instruction(RETURN, 0, 0, answer));
    program.push(Instruction(RETURN, 0, 0, ALLOWED));
    program
}

/// Lets the system answer some calls of a program in this way.
pub fn on_call(command: &mut Command, call: u32, which: Which, answer: Answer) {
    extern "C" {
        fn prctl(option: c_int, ...) -> c_int;
    }
    let program = filter(call, which, answer);
    let install = move || {
        let filter = Filter(program.len() as u16, program.as_ptr());
        let place: *const c_void = (&raw const filter).cast();
        let [none, one, two]: [c_ulong; 3] = [0, 1, 2];
        // No new privileges, which a filter asks for, and then the filter.
        // SAFETY: both calls only read, and the filter lives until they return.
        let is_set = unsafe { prctl(38, one, none, none, none) == 0 && prctl(22, two, place) == 0 };
        match is_set {
            true => Ok(()),
            false => Err(std::io::Error::last_os_error()),
        }
    };
    // SAFETY: between fork and exec it makes two system calls and nothing else.
    unsafe { command.pre_exec(install) };
}

//! Argon2id of libargon2, loaded while the program runs, so that nothing of it is needed to build.

use std::cell::Cell;
use std::ffi::{c_char, c_int, c_void, CStr};
use std::ptr::{null, null_mut};

/// The file that Debian's package libargon2-1 installs.
const LIBRARY: &CStr = c"libargon2.so.1";
const BYTES_PER_KIBIBYTE: usize = 1024;
const RESOLVE_NOW: c_int = 2;
const VERSION_1_3: u32 = 0x13;
const ARGON2ID: c_int = 2;
const MEMORY_ALLOCATION_ERROR: c_int = -22;

extern "C" {
    fn dlopen(file: *const c_char, flags: c_int) -> *mut c_void;
    fn dlsym(library: *mut c_void, name: *const c_char) -> *mut c_void;
}

/// argon2_context of libargon2's header.
#[repr(C)]
struct Context {
    out: *mut u8,
    out_len: u32,
    password: *const u8,
    password_len: u32,
    salt: *const u8,
    salt_len: u32,
    secret: *const u8,
    secret_len: u32,
    associated: *const u8,
    associated_len: u32,
    time_cost: u32,
    memory_kibibytes: u32,
    lanes: u32,
    threads: u32,
    version: u32,
    allocate: unsafe extern "C" fn(memory: *mut *mut u8, bytes: usize) -> c_int,
    free: unsafe extern "C" fn(memory: *mut u8, bytes: usize),
    flags: u32,
}

/// One lane and one thread, in lent memory, of nothing.
const ONE_LANE: Context = Context {
    out: null_mut(),
    out_len: 0,
    password: null(),
    password_len: 0,
    salt: null(),
    salt_len: 0,
    secret: null(),
    secret_len: 0,
    associated: null(),
    associated_len: 0,
    time_cost: 0,
    memory_kibibytes: 0,
    lanes: 1,
    threads: 1,
    version: VERSION_1_3,
    allocate: lend,
    free: take_back,
    flags: 0,
};

type Run = unsafe extern "C" fn(context: *mut Context, kind: c_int) -> c_int;

thread_local! {
    /// The memory lent to the call that runs.
    static LENT: Cell<(*mut u8, usize)> = const { Cell::new((null_mut(), 0)) };
}

/// The loaded library; it stays loaded until the process ends.
#[derive(Clone, Copy)]
pub struct Argon2 {
    run: Run,
}

impl Argon2 {
    /// Loads the library, if it is installed.
    pub fn load() -> Option<Argon2> {
        // SAFETY: both names end with a zero byte, and the library runs no code of its own when it is loaded.
        let function = unsafe {
            let library = dlopen(LIBRARY.as_ptr(), RESOLVE_NOW);
            if library.is_null() {
                return None;
            }
            dlsym(library, c"argon2_ctx".as_ptr())
        };
        if function.is_null() {
            return None;
        }
        // SAFETY: argon2_ctx has had this type since the library's first version under this file name.
        let run = unsafe { std::mem::transmute::<*mut c_void, Run>(function) };
        Some(Argon2 { run })
    }

    /// Argon2id with one lane over the whole lent memory, which like Lyra2's matrix is there before the call.
    pub fn derive(
        &self,
        passes: u32,
        password: &[u8],
        salt: &[u8],
        key: &mut [u8],
        memory: &mut [u64],
    ) -> Result<(), c_int> {
        let bytes = size_of_val(memory);
        LENT.set((memory.as_mut_ptr().cast(), bytes));
        let mut context = Context {
            out: key.as_mut_ptr(),
            out_len: narrow(key.len()),
            password: password.as_ptr(),
            password_len: narrow(password.len()),
            salt: salt.as_ptr(),
            salt_len: narrow(salt.len()),
            time_cost: passes,
            memory_kibibytes: narrow(bytes / BYTES_PER_KIBIBYTE),
            ..ONE_LANE
        };
        // SAFETY: every pointer goes with its length and outlives the call; the library asks for its memory by
        // `lend` in this thread, since one thread is asked for.
        let answer = unsafe { (self.run)(&mut context, ARGON2ID) };
        LENT.set((null_mut(), 0));
        if answer == 0 {
            Ok(())
        } else {
            Err(answer)
        }
    }
}

fn narrow(number: usize) -> u32 {
    u32::try_from(number).expect("lengths and memory fit 32 bits")
}

/// Hands the lent memory to the library, if it is as much as is asked for.
unsafe extern "C" fn lend(memory: *mut *mut u8, bytes: usize) -> c_int {
    let (lent, available) = LENT.get();
    if bytes > available {
        return MEMORY_ALLOCATION_ERROR;
    }
    // SAFETY: the library passes the place for its pointer.
    unsafe { *memory = lent };
    0
}

/// The memory is the caller's, and so nothing is freed.
unsafe extern "C" fn take_back(_memory: *mut u8, _bytes: usize) {}

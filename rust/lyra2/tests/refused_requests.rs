//! Memory serves whatever the system refuses of large pages, dumps and locking. This program's own `madvise` and
//! `mlock` take requests or refuse them as a test says.

use lyra2::{derive, Granted, Parameters};
use lyra2_reference::{Inputs, Settings};
use std::ffi::{c_int, c_void};
use std::sync::Mutex;

/// Numbers of the advices.
const HUGEPAGE: c_int = 14;
const DONTDUMP: c_int = 16;

/// A request to the system.
#[derive(Clone, Copy, Debug, PartialEq)]
enum Request {
    LargePages,
    KeepFromDumps,
    Lock,
    Unknown,
}

/// Requests that are refused, and all that were made.
struct System {
    refused: Vec<Request>,
    made: Vec<(Request, usize, usize)>,
}

static SYSTEM: Mutex<System> = Mutex::new(System {
    refused: Vec::new(),
    made: Vec::new(),
});

/// 0, or -1 for a request that is refused.
fn answer(request: Request, start: *const c_void, bytes: usize) -> c_int {
    let mut system = SYSTEM.lock().expect("no thread panics with the lock");
    system.made.push((request, start.addr(), bytes));
    if system.refused.contains(&request) {
        -1
    } else {
        0
    }
}

/// Stands in for the C library's.
#[no_mangle]
extern "C" fn madvise(start: *mut c_void, bytes: usize, advice: c_int) -> c_int {
    let request = match advice {
        HUGEPAGE => Request::LargePages,
        DONTDUMP => Request::KeepFromDumps,
        _ => Request::Unknown,
    };
    answer(request, start, bytes)
}

/// Stands in for the C library's.
#[no_mangle]
extern "C" fn mlock(start: *const c_void, bytes: usize) -> c_int {
    answer(Request::Lock, start, bytes)
}

/// The key by the second program.
fn due_key(parameters: Parameters) -> [u8; 32] {
    let inputs = Inputs {
        password: b"password",
        salt: b"saltsalt",
        t: parameters.time as u64,
        r: parameters.rows as u64,
        c: parameters.columns as u64,
        settings: Settings::USUAL,
    };
    let mut key = [0; 32];
    let mut matrix = vec![0; 12 * parameters.rows * parameters.columns];
    lyra2_reference::derive(&inputs, &mut key, &mut matrix).expect("no check refuses");
    key
}

/// Derives in memory for which the system refuses these requests; returns what it granted and what it was asked.
fn derive_refused(parameters: Parameters, refused: &[Request]) -> (Granted, Vec<Request>) {
    *SYSTEM.lock().expect("no thread panics with the lock") = System {
        refused: refused.to_vec(),
        made: Vec::new(),
    };
    let mut matrix = parameters.matrix().expect("a few megabytes");
    let mut key = [0; 32];
    derive(b"password", b"saltsalt", parameters, &mut key, &mut matrix).expect("accepted");
    assert_eq!(key, due_key(parameters), "{refused:?}");
    let system = SYSTEM.lock().expect("no thread panics with the lock");
    let (start, bytes) = (matrix.as_ptr().addr(), size_of_val(&matrix[..]));
    for &(request, first, length) in &system.made {
        assert_eq!((first, length), (start, bytes), "{request:?}");
    }
    let asked = system.made.iter().map(|&(request, ..)| request);
    (matrix.granted(), asked.collect())
}

/// It is one test, since the stand-ins keep their requests for one at a time.
#[test]
fn memory_serves_whatever_is_refused() {
    use Request::{KeepFromDumps, LargePages, Lock};
    let [small, large] = [64, 1024].map(|rows| Parameters {
        time: 1,
        rows,
        columns: 64,
    });
    for number in 0..8 {
        let mut refused = vec![LargePages, KeepFromDumps, Lock];
        refused.retain(|&request| number >> request as u32 & 1 == 1);
        let takes = |request| !refused.contains(&request);
        let due = Granted {
            large_pages: takes(LargePages),
            kept_from_dumps: takes(KeepFromDumps),
            locked: takes(Lock),
        };
        let (granted, asked) = derive_refused(large, &refused);
        assert_eq!(granted, due);
        // Pages that are locked first would be ordinary ones.
        assert_eq!(asked, [LargePages, KeepFromDumps, Lock]);
        let (granted, asked) = derive_refused(small, &refused);
        let large_pages = false;
        assert_eq!(granted, Granted { large_pages, ..due });
        assert_eq!(asked, [KeepFromDumps, Lock]);
    }
}

//! Bytes that are overwritten when they are dropped, overwriting the stack, and no core dumps.
//!
//! Copies that the system makes, in a pipe or by swapping, are out of reach.

use rustix::process::{setrlimit, Resource, Rlimit};
use zeroize::{Zeroize, Zeroizing};

/// A buffer that ends as zeros, up to its capacity. It may get shorter; growing would leave a copy to the allocator.
pub type Secret = Zeroizing<Vec<u8>>;

/// So many zeros.
pub fn zeros(count: usize) -> Secret {
    Zeroizing::new(vec![0; count])
}

/// From now on the system writes no core dump of the program, in which a password could be. A limit may always be lowered.
pub fn forbid_core_dumps() {
    let none = Rlimit {
        current: Some(0),
        maximum: Some(0),
    };
    let _ = setrlimit(Resource::Core, none);
}

/// More than the library's calls use of the stack.
const STACK_BYTES: usize = 1 << 14;

/// Overwrites the stack below the caller, where a call that has ended may leave what it worked on. The library clears
/// its state there, which is measured and not promised, and leaves numbers of rows and columns.
#[inline(never)]
pub fn wipe_stack() {
    [1u8; STACK_BYTES].zeroize();
}

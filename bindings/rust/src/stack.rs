//! The stack of a call on a store.
use crate::SMALL_MAX;
use std::thread::{scope, Builder};

/// The stack of a thread that runs one call on a large store: what the call takes, and room for the thread itself.
pub(crate) const OWN_STACK: usize = 8 << 20;

/// Runs a call on a store whose index has that length: where that is more than a call takes little stack for, on a thread
/// of its own. Panics where the system gives none.
pub(crate) fn on_stack_for<T: Send>(index_len: usize, call: impl FnOnce() -> T + Send) -> T {
    if index_len <= SMALL_MAX {
        return call();
    }
    scope(|scope| {
        let thread = Builder::new().name("raspteal".into()).stack_size(OWN_STACK).spawn_scoped(scope, call);
        let thread = thread.expect("a call on a large store needs a thread with a stack of 8 MiB");
        thread.join().expect("no call of the library fails")
    })
}

const _: () = assert!(crate::ffi::STACK_LARGE + (64 << 10) <= OWN_STACK);

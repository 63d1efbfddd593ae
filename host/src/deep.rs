// Runs a function on a thread with a stack that deep terms do not exhaust.
use std::{cell::Cell, panic, thread};

const STACK: usize = 1 << 30;

thread_local! {
    static DEEP: Cell<bool> = const { Cell::new(false) };
}

/// The function's result, from a thread with a large stack; from this one if it has such a stack.
pub fn run<T: Send>(function: impl FnOnce() -> T + Send) -> T {
    if DEEP.get() {
        return function();
    }
    thread::scope(|scope| {
        let started = thread::Builder::new()
            .stack_size(STACK)
            .spawn_scoped(scope, || {
                DEEP.set(true);
                function()
            });
        match started.expect("a thread with a large stack").join() {
            Ok(result) => result,
            Err(cause) => panic::resume_unwind(cause),
        }
    })
}

//! The streams of a run, each in a thread of its own, however many processors there are: so a seed gives the same
//! documents and tables everywhere.

use std::thread;

/// How many streams there are.
pub const PARTS: usize = 2;
/// The library's functions keep rooms on the stack.
const STACK: usize = 16 << 20;

/// What the streams end with, in their order, once all have ended; or a difference that one of them found.
pub fn each_stream<T: Send, D: Send>(work: impl Fn(usize) -> Result<T, D> + Sync) -> Result<Vec<T>, D> {
    thread::scope(|scope| {
        let start = |part| {
            let work = &work;
            thread::Builder::new().stack_size(STACK).spawn_scoped(scope, move || work(part)).expect("a thread")
        };
        let threads: Vec<_> = (0..PARTS).map(start).collect();
        let ended: Vec<_> = threads.into_iter().map(|thread| thread.join().expect("no panic")).collect();
        ended.into_iter().collect()
    })
}

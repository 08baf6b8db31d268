//! What the crate answers, row by row, alone and from several threads at once.

mod conformance;
mod documents;
mod hostile;
mod paths;
mod refusals;
mod rows;

use std::thread;

#[test]
fn several_threads_at_once() {
    thread::scope(|scope| {
        for _ in 0..4 {
            scope.spawn(rows::all);
            scope.spawn(refusals::all);
            scope.spawn(hostile::all);
        }
    });
}

#[test]
fn a_stack_of_1_mb() {
    let thread = thread::Builder::new().stack_size(1 << 20);
    thread.spawn(hostile::deepest).unwrap().join().unwrap();
}

//! The proved router for key foils, as safe types over libfoil.a. No dependencies.
//!
//! ```
//! use keyfoil::{Pen, Refusal, Sheet};
//!
//! # keyfoil::with_stack(|| {
//! let mut sheet = Sheet::new();
//! sheet.new_foil(0, 6, 4, Pen::default())?;
//! sheet.draw(0, 2, 0, 3, 3)?;
//! let way = sheet.lay(0, 5, (0, 0), (4, 0))?;
//! assert_eq!((2, vec![(0, 0), (0, 3), (4, 3), (4, 0)]), (way.bends, way.corners));
//! assert_eq!(Err(Refusal::NetOnFoil), sheet.lay(0, 5, (0, 0), (4, 0)));
//! # Ok::<(), Refusal>(())
//! # }).unwrap();
//! ```
//!
//! `STACK` bytes of stack are enough for a call and for what little calls it, and a thread of Rust has as many. One that
//! needs much stack itself is started with more by `std::thread::Builder::stack_size`; `with_stack` does a piece of
//! work in a thread with `STACK` bytes. A call that runs out of stack ends the program at the guard page. Nothing is
//! kept between calls: sheets in several threads do not notice each other.
mod answers;
pub mod lent;
pub mod limits;
mod sheet;

pub use answers::{Bent, Pen, Point, Record, Refusal, Steps, Strip, Way, Wish};
pub use lent::{Board, Entry, Ink};
pub use limits::STACK;
pub use sheet::Sheet;

/// Does a piece of work in a thread with stack enough for every call, and waits for it.
pub fn with_stack<T: Send>(work: impl FnOnce() -> T + Send) -> T {
    std::thread::scope(|scope| {
        let thread = std::thread::Builder::new().stack_size(STACK).spawn_scoped(scope, work).expect("a thread starts");
        thread.join().unwrap_or_else(|panic| std::panic::resume_unwind(panic))
    })
}

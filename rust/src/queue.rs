//! A queue for one card: requests of several clients wait in it, one worker serves them, neighbours together, and each gets one answer.
//!
//! ```
//! use kelifandro::queue::{Queue, Request, Slot};
//! use kelifandro::{Partition, SdCard};
//! use memory_card::MemoryCard;
//!
//! let mut card = SdCard::new(MemoryCard::sd());
//! card.open()?;
//! // what is lent to the queue comes before it
//! let mut back = [[0; 512]; 2];
//! let mut write = Request::write(Partition::User, 7, &[[0xa5; 512]]);
//! let mut read = Request::read(Partition::User, 6, &mut back);
//! let mut slots = [Slot::FREE; 8];
//!
//! let queue = Queue::new(&mut slots);
//! let mut worker = queue.open(&mut card)?;
//! let written = queue.submit(&mut write)?;
//! let reading = queue.submit(&mut read)?;
//! while worker.turn() > 0 {}
//! assert!(written.answer().is_ok_and(|answered| answered.result.is_ok()));
//! let answered = reading.answer().expect("nothing waits any more");
//! assert_eq!(answered.result, Ok(()));
//! assert_eq!(answered.request.blocks(), [[0; 512], [0xa5; 512]]);
//! # Ok::<(), kelifandro::Error>(())
//! ```
//!
//! - **Clients** have `&Queue`. [`submit`](Queue::submit) lends a request and gives a [`Ticket`], by which the answer is asked for, or
//!   the request given back, and waits for no card; [`carry_out`](Queue::carry_out) comes back with the answer.
//! - **The worker** has the card, and takes [`turn`](Worker::turn)s until nothing is left. Whom it wakes then, and who wakes it after a
//!   submission, is yours: a semaphore, an event, `std::thread::park`.
//! - **A lock** stands between threads, or interrupts: [`Queue::shared`]. With [`SpinLock`] nothing here is unsafe for who uses it.
//!
//! # What is done in which order
//!
//! As if each request were carried out whole and at once, none before an earlier one that it conflicts with: a sector in common, and one
//! of them isn't a read. Neighbours that wait together become one request of the card, where there is memory for it
//! ([`Queue::gathering`]). Where that fails, each is served alone next, so none fails for its neighbours. One that failed leaves each
//! sector that it names old or new, and all others unchanged.
//!
//! # Why it is sound
//!
//! From acceptance to answer the library has the address of a request and of its memory. What keeps them in place and alone is a
//! lifetime, and no destructor:
//!
//! - The library looks at a request in calls for its queue alone; nothing goes on by itself between two calls, a controller's DMA neither.
//! - A [`Queue<'q>`](Queue) is used while `'q` goes on, and [`submit`](Queue::submit) borrows the request, which has borrowed its memory,
//!   for all of `'q`. As `'q` can't be another one for the same queue, the compiler takes both for borrowed as long as there can be a
//!   call: they can't be looked at, moved or dropped, and what is gone before the queue can't be lent at all.
//! - They come back earlier by the ticket alone, whose [`answer`](Ticket::answer) and [`cancel`](Ticket::cancel) give `&'q mut Request`
//!   once the library has left the request, and take the ticket with them. While there is a ticket its queue doesn't move.
//! - So a ticket may be dropped or forgotten: nobody can have the request back then, and it stays lent. Where a worker is forgotten
//!   nobody takes turns any more; where a queue is, there is no call for it.
//! - The slots, the memory to gather in and the lock are lent for `'q` too. A queue has no address of itself, and may be moved.
//! - [`carry_out`](Queue::carry_out) borrows a request for less, and doesn't come back before its answer; a panic out of its `idle` ends
//!   the program.
//!
//! None of this compiles: memory that is used before the answer, be the ticket forgotten or not; a request that is moved or dropped while
//! it waits; one that is gone before the queue; a queue without a lock in two threads.
//! ```compile_fail
//! # use kelifandro::{queue::{Queue, Request, Slot}, Partition, SdCard};
//! # let mut card = SdCard::new(memory_card::MemoryCard::sd());
//! # card.open()?;
//! # let mut slots = [Slot::FREE; 8];
//! let mut blocks = [[0; 512]; 2];
//! let mut request = Request::read(Partition::User, 6, &mut blocks);
//! let queue = Queue::new(&mut slots);
//! let mut worker = queue.open(&mut card)?;
//! std::mem::forget(queue.submit(&mut request)?);
//! blocks[0][0] = 1; // it is lent still
//! worker.turn();
//! # Ok::<(), kelifandro::Error>(())
//! ```

use core::fmt;

use crate::Error;

#[cfg(target_has_atomic = "8")]
pub use crate::sys::queue::SpinLock;
pub use crate::sys::queue::{Lock, NoLock, Queue, Request, Slot, Ticket, Worker};

/// A request that has its answer, and is its client's again: it may be submitted again.
#[derive(Debug)]
pub struct Answered<'q> {
    /// The answer: done, or one of the five `Failed..`, or [`Error::Closed`]; or why it was refused, where a card was opened anew.
    pub result: Result<(), Error>,
    /// The request, whose [`blocks`](Request::blocks) a read has filled where it is done.
    pub request: &'q mut Request<'q>,
}

/// What a queue refuses: a request that is submitted, or a ticket whose request is to be given back.
#[derive(Clone, Copy, Debug, PartialEq, Eq, Hash)]
pub struct Refused<T> {
    /// Why.
    pub error: Error,
    /// What was refused, back.
    pub back: T,
}

impl<T> From<Refused<T>> for Error {
    fn from(refused: Refused<T>) -> Error {
        refused.error
    }
}

impl<T> fmt::Display for Refused<T> {
    fn fmt(&self, f: &mut fmt::Formatter<'_>) -> fmt::Result {
        self.error.fmt(f)
    }
}

impl<T: fmt::Debug> core::error::Error for Refused<T> {}

/// What each test below begins with; `Compiles` shows that it does.
#[cfg(doctest)]
macro_rules! begin {
    () => {
        "use kelifandro::queue::{Lock, Queue, Request, Slot, SpinLock};
         use kelifandro::{Partition, SdCard};
         let mut card = SdCard::new(memory_card::MemoryCard::sd());
         card.open().unwrap();
         let mut slots = [Slot::FREE; 8];
         let mut blocks = [[0; 512]; 2];
         let mut request = Request::read(Partition::User, 6, &mut blocks);
         let queue = Queue::new(&mut slots);
         let mut worker = queue.open(&mut card).unwrap();
         let ticket = queue.submit(&mut request).unwrap();\n"
    };
}

/// Tests of the documentation, each of some lines behind that beginning, with the error that it has to be refused by.
#[cfg(doctest)]
macro_rules! trials {
    ($($name:ident $kind:literal $lines:literal)*) => {
        $(#[doc = concat!("```", $kind, "\n", begin!(), $lines, "\n```")] struct $name;)*
    };
}

#[cfg(doctest)]
trials! {
    Compiles "rust" "worker.turn(); let request = ticket.answer().unwrap().request; assert_eq!(request.blocks(), [[0; 512]; 2]);
        queue.submit(request).unwrap().cancel().unwrap().take_blocks().unwrap()[0][0] = 1;
        drop(worker); blocks[1][1] = 2; assert_eq!(blocks[0][0], 1);"
    Forgotten "rust" "std::mem::forget(ticket); worker.turn(); drop(worker); drop(queue); assert_eq!(blocks, [[0; 512]; 2]);"
    WorkerForgotten "rust" "std::mem::forget(worker); assert!(ticket.answer().is_err());
        let moved = queue; assert_eq!(moved.unanswered(), 1); blocks[0][0] = 1;"
    WrittenBefore "compile_fail,E0506" "blocks[0][0] = 1; worker.turn(); ticket.answer().unwrap();"
    ReadBefore "compile_fail,E0502" "assert_eq!(blocks, [[0; 512]; 2]); worker.turn(); ticket.answer().unwrap();"
    LookedAtBefore "compile_fail,E0502" "request.blocks(); worker.turn(); ticket.answer().unwrap();"
    TakenBefore "compile_fail,E0499" "request.take_blocks(); worker.turn(); ticket.answer().unwrap();"
    Dropped "compile_fail,E0505" "drop(request); worker.turn(); ticket.answer().unwrap();"
    Moved "compile_fail,E0505" "let moved = request; worker.turn(); ticket.answer().unwrap(); drop(moved);"
    Overwritten "compile_fail,E0506" "request = Request::erase(Partition::User, 0, 1); worker.turn(); ticket.answer().unwrap();"
    SubmittedTwice "compile_fail,E0499" "let _ = queue.submit(&mut request); worker.turn(); ticket.answer().unwrap();"
    WrittenOfAForgotten "compile_fail,E0506" "std::mem::forget(ticket); blocks[0][0] = 1; worker.turn();"
    WrittenOfADropped "compile_fail,E0506" "drop(ticket); blocks[0][0] = 1; worker.turn();"
    MovedOfAForgotten "compile_fail,E0505" "std::mem::forget(ticket); let moved = request; worker.turn(); drop(moved);"
    WrittenOfAClosed "compile_fail,E0506" "worker.close(); blocks[0][0] = 1; queue.unanswered();"
    ComesTooLate "compile_fail,E0597" "let mut late = Request::erase(Partition::User, 0, 1);
        let _ = queue.submit(&mut late); worker.turn();"
    GoesTooEarly "compile_fail,E0597" "{ let mut short = Request::erase(Partition::User, 0, 1);
        std::mem::forget(queue.submit(&mut short)); } worker.turn();"
    MemoryGoesTooEarly "compile_fail,E0597" "let other = Box::leak(Box::new(Request::erase(Partition::User, 0, 1)));
        { let short = [[0; 512]]; *other = Request::write(Partition::User, 0, &short); let _ = queue.submit(other); }
        worker.turn();"
    QueueMoved "compile_fail,E0505" "worker.close(); let moved = queue; ticket.answer().unwrap(); drop(moved);"
    QueueDropped "compile_fail,E0505" "worker.close(); drop(queue); ticket.answer().unwrap();"
    SlotsUsed "compile_fail,E0506" "slots[0] = Slot::FREE; worker.turn();"
    CardUsed "compile_fail,E0499" "card.close(); worker.turn();"
    TicketInAnotherThread "compile_fail,E0277" "std::thread::scope(|scope| { scope.spawn(move || ticket.answer().is_ok()); });"
    QueueInAnotherThread "compile_fail,E0277" "std::thread::scope(|scope| { scope.spawn(|| queue.unanswered()); });"
    WorkerInAnotherThread "compile_fail,E0277" "std::thread::scope(|scope| { scope.spawn(move || worker.turn()); });"
    UnlockedByOthers "compile_fail,E0133" "SpinLock::new().unlock();"
    AnsweredTwice "compile_fail,E0382" "let first = ticket.answer(); let second = ticket.answer();"
    CancelledAndAnswered "compile_fail,E0382" "let first = ticket.cancel(); let second = ticket.answer();"
}

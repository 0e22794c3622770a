//! Two clients write to one card at the same time, each a thread, and a worker serves them. What one has is between what the other has,
//! so the queue joins neighbours: sixteen requests become one write. With a card of yours nothing else changes here.
//!
//!     cargo run --example queue

use std::sync::atomic::{AtomicBool, Ordering};
use std::sync::{Barrier, Condvar, Mutex};
use std::thread::{self, Thread};

use kelifandro::queue::{Queue, Request, Slot, SpinLock, Ticket, Worker};
use kelifandro::{Error, Partition, SdCard, Sector, Way};
use memory_card::MemoryCard;

const PIECES: usize = 8;
const SECTORS: usize = 8;

/// What the threads have in common besides the queue: the worker rings after each turn, and clients wait for that.
struct Bell {
    all_wait: Barrier, // for this example alone: both clients have submitted all, so it tells the same each time
    rings: Mutex<()>,
    rung: Condvar,
    is_over: AtomicBool,
}

impl Bell {
    fn ring(&self) {
        drop(self.rings.lock());
        self.rung.notify_all();
    }

    /// Sleeps until a request has its answer.
    fn wait(&self, mut ticket: Ticket<'_, '_, SpinLock>) -> Result<(), Error> {
        let mut rings = self.rings.lock().expect("nobody panics");
        loop {
            match ticket.answer() {
                Ok(answered) => return answered.result, // and `answered.request` is the client's again
                Err(waiting) => ticket = waiting,
            }
            rings = self.rung.wait(rings).expect("nobody panics");
        }
    }
}

/// The pieces that a client writes.
fn requests_of(own: usize, data: &[Sector; SECTORS]) -> [Request<'_>; PIECES] {
    core::array::from_fn(|piece| {
        let start = (2 * piece + own) * SECTORS;
        Request::write(Partition::User, start as u32, data)
    })
}

/// A client submits all that it has, and waits for the answers: how many are done.
fn client<'q>(
    queue: &Queue<'q, SpinLock>,
    requests: &'q mut [Request<'q>],
    bell: &Bell,
    worker: &Thread,
) -> Result<usize, Error> {
    let mut tickets = Vec::new();
    for request in requests {
        tickets.push(queue.submit(request)?); // Error::Full says that it may be submitted again later
    }
    bell.all_wait.wait();
    worker.unpark();
    let answers = tickets.into_iter().map(|ticket| bell.wait(ticket));
    Ok(answers.filter(Result::is_ok).count())
}

/// The worker takes turns until nothing waits, and sleeps until somebody has submitted something, or all is over.
fn serve<W: Way>(worker: &mut Worker<'_, '_, W, SpinLock>, bell: &Bell) {
    bell.all_wait.wait();
    while !bell.is_over.load(Ordering::SeqCst) {
        while worker.turn() > 0 {
            bell.ring();
        }
        bell.ring();
        thread::park();
    }
}

/// Two clients and the worker, each a thread, until both clients have their answers.
fn run<'q, W: Way + Send>(
    queue: &Queue<'q, SpinLock>,
    requests: &'q mut [[Request<'q>; PIECES]; 2],
    worker: &mut Worker<'_, 'q, W, SpinLock>,
) {
    let bell = Bell {
        all_wait: Barrier::new(3),
        rings: Mutex::new(()),
        rung: Condvar::new(),
        is_over: AtomicBool::new(false),
    };
    let bell = &bell;
    thread::scope(|scope| {
        let served = scope.spawn(move || serve(worker, bell));
        let clients = requests.each_mut().map(|requests| {
            let served = served.thread().clone();
            scope.spawn(move || client(queue, requests, bell, &served))
        });
        for (number, client) in clients.into_iter().enumerate() {
            match client.join().expect("nobody panics") {
                Ok(done) => println!("client {number}: {done} of {PIECES} requests done"),
                Err(error) => println!("client {number}: {error}"),
            }
        }
        bell.is_over.store(true, Ordering::SeqCst);
        served.thread().unpark();
    });
}

fn main() -> Result<(), Error> {
    let mut card = SdCard::new(MemoryCard::sd());
    card.open()?;
    // what is lent to the queue comes before it: requests and what they write, slots, a lock, and memory to join neighbours in
    let data = [[[b'a'; 512]; SECTORS], [[b'b'; 512]; SECTORS]];
    let mut requests = [0, 1].map(|own| requests_of(own, &data[own]));
    let mut slots = [Slot::FREE; 32];
    let mut memory = vec![[0; 512]; 2 * PIECES * SECTORS];
    let lock = SpinLock::new();

    let queue = Queue::shared(&mut slots, &lock).gathering(&mut memory);
    let mut worker = queue.open(&mut card)?;
    run(&queue, &mut requests, &mut worker);
    let attempts = worker.card().healed().attempts;
    println!("{attempts} request of the card for all of them");
    for start in (0..4).map(|piece| piece * SECTORS as u32) {
        let mut block = [[0; 512]];
        // who waits for each answer has memory of its own; here it is the worker, too
        let read = Request::read(Partition::User, start, &mut block);
        queue.carry_out(read, || {
            worker.turn();
        })?;
        let text = String::from_utf8_lossy(&block[0][..4]);
        println!("sector {start:2}: {text}..");
    }
    Ok(())
}

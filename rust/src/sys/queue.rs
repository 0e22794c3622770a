//! `kelifandro_queue.h` as Rust has it, and the calls for a queue. [`crate::queue`] says why safe code can't misuse them.
//!
//! Nobody makes a reference to the struct of a queue once it is built: C writes to it under the lock. What Rust writes then is `card`, at
//! which the worker's calls alone look, and `has_worker`, under the lock. A request that was submitted is C's: a ticket has its address,
//! and makes a reference of it once there is an answer.

use core::cell::UnsafeCell;
use core::ffi::c_void;
use core::marker::PhantomData;
use core::ptr::{self, NonNull};
#[cfg(target_has_atomic = "8")]
use core::sync::atomic::{AtomicBool, Ordering};
use core::{fmt, mem, slice};

use super::{CCard, CKelifandro, Way};
use crate::error::Error;
use crate::queue::{Answered, Refused};
use crate::{Partition, SdCard, Sector};

const WAITING: i32 = 1;
const DONE: i32 = 0;
const MOST_TOGETHER: usize = 16;
const READS: u8 = 0;
const WRITES: u8 = 1;
const ERASES: u8 = 2;
const TRIMS: u8 = 3;

#[repr(C)]
pub(super) struct CRequest {
    pub kind: u8,
    pub part: u8,
    pub client: u32,
    pub start: u32,
    pub count: u32,
    pub memory: *mut c_void,
    pub answered: Option<unsafe extern "C" fn(*mut CRequest)>,
    pub context: *mut c_void,
    pub result: i32,
    pub ticket: u64,
    pub queue: *mut CQueue,
}

#[repr(C)]
#[derive(Clone, Copy)]
pub(super) struct CMember {
    request: *mut CRequest,
    start: u32,
    count: u32,
}

type LockFn = unsafe extern "C" fn(*mut c_void);

#[repr(C)]
pub(super) struct CQueue {
    card: *mut CKelifandro,
    pub slots: *mut Slot,
    pub count: usize,
    pub gather: *mut c_void,
    pub gather_sectors: usize,
    pub lock: Option<LockFn>,
    pub unlock: Option<LockFn>,
    pub wake: Option<LockFn>,
    pub context: *mut c_void,
    pub opened: CCard,
    pub next: u64,
    pub is_open: u8,
    pub is_turning: u8,
    pub members: [CMember; MOST_TOGETHER],
}

/// A place of a queue for a request that has no answer: 32 bytes.
#[repr(C)]
#[derive(Clone, Copy)]
pub struct Slot {
    ticket: u64,
    pub(super) whose: u64,
    pub(super) start: u32,
    pub(super) count: u32,
    pub(super) client: u32,
    pub(super) state: u8,
    pub(super) kind: u8,
    pub(super) part: u8,
    pub(super) answer: u8,
}

impl Slot {
    /// A slot that nobody has, as all are before their queue is opened.
    pub const FREE: Slot = Slot {
        ticket: 0,
        whose: 0,
        start: 0,
        count: 0,
        client: 0,
        state: 0,
        kind: 0,
        part: 0,
        answer: 0,
    };
}

impl Default for Slot {
    fn default() -> Slot {
        Slot::FREE
    }
}

impl fmt::Debug for Slot {
    fn fmt(&self, f: &mut fmt::Formatter<'_>) -> fmt::Result {
        f.debug_struct("Slot").finish_non_exhaustive()
    }
}

extern "C" {
    fn kelifandro_queue_open(queue: *mut CQueue) -> i32;
    fn kelifandro_submit(queue: *mut CQueue, request: *mut CRequest) -> i32;
    fn kelifandro_cancel(request: *mut CRequest) -> i32;
    fn kelifandro_turn(queue: *mut CQueue) -> usize;
    fn kelifandro_answer(request: *mut CRequest) -> i32;
    fn kelifandro_unanswered(queue: *mut CQueue) -> usize;
    fn kelifandro_queue_close(queue: *mut CQueue) -> i32;
}

/// What a queue is locked by while its slots are looked at, which is never for as long as an exchange with the card.
///
/// A mutex of an operating system; [`SpinLock`]; where an interrupt is a client, the switch of the processor's interrupts. A mutex that
/// has a guard in the way of `std` can't be one: it is locked by one call and unlocked by another.
///
/// # Safety
/// Between a `lock` that has come back and the `unlock` after it no other `lock` of the same value comes back, of any thread or interrupt
/// that can have the value; and who locks it sees what was written before it was unlocked. (A type that isn't [`Sync`] is had by one
/// thread alone.) Neither function makes a call for a queue.
///
/// # Examples
/// Of one processor, where interrupts are clients too; `interrupts` stands for what your processor has, or `critical_section`:
/// ```
/// use core::cell::Cell;
/// use kelifandro::queue::Lock;
/// # mod interrupts { pub fn switch_off() -> bool { true } pub fn switch_on() {} }
///
/// struct Interrupts {
///     were_on: Cell<bool>,
/// }
///
/// // SAFETY: the cell is looked at while nobody else runs.
/// unsafe impl Sync for Interrupts {}
///
/// // SAFETY: there is one processor, on which nobody else runs while its interrupts are off.
/// unsafe impl Lock for Interrupts {
///     unsafe fn lock(&self) {
///         let were_on = interrupts::switch_off();
///         self.were_on.set(were_on);
///     }
///
///     unsafe fn unlock(&self) {
///         if self.were_on.get() {
///             interrupts::switch_on();
///         }
///     }
/// }
/// ```
pub unsafe trait Lock {
    /// Waits until nobody else has it locked, and locks it.
    ///
    /// # Safety
    /// It is called by a queue, which unlocks it before it locks it again.
    unsafe fn lock(&self);

    /// Unlocks it.
    ///
    /// # Safety
    /// It is called by who has locked it.
    unsafe fn unlock(&self);
}

/// The lock of a queue that one thread alone has, client and worker in one: none. It isn't [`Sync`], nor is a queue without another.
#[derive(Clone, Copy, Debug, Default)]
pub struct NoLock(PhantomData<*const ()>);

impl NoLock {
    const HERE: NoLock = NoLock(PhantomData);
}

// SAFETY: one thread has it, and what it does between `lock` and `unlock` comes to no other call for a queue.
unsafe impl Lock for NoLock {
    unsafe fn lock(&self) {}

    unsafe fn unlock(&self) {}
}

/// A lock for threads, without an operating system: who finds it locked looks again until it isn't.
///
/// Neither for interrupts nor for threads of which one always comes before another: who looks then may keep the other from unlocking it.
/// Processors without atomic exchange (thumbv6m) don't have it.
#[cfg(target_has_atomic = "8")]
#[derive(Debug, Default)]
pub struct SpinLock(AtomicBool);

#[cfg(target_has_atomic = "8")]
impl SpinLock {
    /// One that isn't locked.
    pub const fn new() -> SpinLock {
        SpinLock(AtomicBool::new(false))
    }
}

// SAFETY: of all that exchange `false` for `true` one finds `false` until it is stored again, and it sees what was written before that.
#[cfg(target_has_atomic = "8")]
unsafe impl Lock for SpinLock {
    unsafe fn lock(&self) {
        while self.0.swap(true, Ordering::Acquire) {
            core::hint::spin_loop();
        }
    }

    unsafe fn unlock(&self) {
        self.0.store(false, Ordering::Release);
    }
}

unsafe extern "C" fn lock<L: Lock>(context: *mut c_void) {
    // SAFETY: the context is the lock, which is borrowed for as long as the queue is there; C unlocks it before it locks it again
    unsafe { (*context.cast::<L>().cast_const()).lock() }
}

unsafe extern "C" fn unlock<L: Lock>(context: *mut c_void) {
    // SAFETY: as of `lock`; C has locked it
    unsafe { (*context.cast::<L>().cast_const()).unlock() }
}

/// What a client asks: sectors of a card that are read, written, erased or trimmed.
///
/// It is made with the memory that it reads into or writes from, and lent to a [`Queue`] with it, until there is an answer.
pub struct Request<'q> {
    pub(super) raw: CRequest,
    /// Whether nobody else has its memory, which can be taken then.
    is_alone: bool,
    lent: PhantomData<&'q mut [Sector]>,
}

// SAFETY: its memory is of bytes, lent as a slice that may be sent; of what else it points to it doesn't make anything by itself.
unsafe impl Send for Request<'_> {}

impl<'q> Request<'q> {
    fn of(kind: u8, partition: Partition, start: u32, count: u32) -> Request<'q> {
        let raw = CRequest {
            kind,
            part: partition as u8,
            client: 0,
            start,
            count,
            memory: ptr::null_mut(),
            answered: None,
            context: ptr::null_mut(),
            result: DONE,
            ticket: 0,
            queue: ptr::null_mut(),
        };
        Request {
            raw,
            is_alone: false,
            lent: PhantomData,
        }
    }

    fn lend(mut self, blocks: *mut Sector, is_alone: bool) -> Request<'q> {
        self.raw.memory = blocks.cast();
        self.is_alone = is_alone;
        self
    }

    /// Reads as many sectors as `blocks` has, 1 to 1,024, from sector `start` on. After a failure `blocks` may hold anything.
    pub fn read(partition: Partition, start: u32, blocks: &'q mut [Sector]) -> Request<'q> {
        Request::of(READS, partition, start, number(blocks.len())).lend(blocks.as_mut_ptr(), true)
    }

    /// Writes as many sectors as `blocks` has, 1 to 1,024, from sector `start` on.
    pub fn write(partition: Partition, start: u32, blocks: &'q [Sector]) -> Request<'q> {
        let memory = blocks.as_ptr().cast_mut(); // of a write C reads it, and so does whom C hands it to
        Request::of(WRITES, partition, start, number(blocks.len())).lend(memory, false)
    }

    /// The same, by memory that can be [taken](Request::take_blocks) back to hold something else.
    pub fn write_mut(partition: Partition, start: u32, blocks: &'q mut [Sector]) -> Request<'q> {
        Request::of(WRITES, partition, start, number(blocks.len())).lend(blocks.as_mut_ptr(), true)
    }

    /// Erases `count` sectors from sector `start` on, as [`SdCard::erase`] does.
    pub fn erase(partition: Partition, start: u32, count: u32) -> Request<'q> {
        Request::of(ERASES, partition, start, count)
    }

    /// Trims `count` sectors from sector `start` on, as [`SdCard::trim`] does.
    pub fn trim(partition: Partition, start: u32, count: u32) -> Request<'q> {
        Request::of(TRIMS, partition, start, count)
    }

    /// Whose it is, by a number that changes nothing: 0, where none is given.
    pub fn of_client(mut self, client: u32) -> Request<'q> {
        self.raw.client = client;
        self
    }

    /// The sectors that are read or written; none of an erase or a trim.
    pub fn blocks(&self) -> &[Sector] {
        if self.raw.kind > WRITES {
            return &[];
        }
        // SAFETY: `count` is at most how many sectors the memory has, which is lent for 'q; the request isn't lent now
        unsafe { slice::from_raw_parts(self.raw.memory.cast(), self.raw.count as usize) }
    }

    /// The memory of a [read](Request::read) or of a write by [`write_mut`](Request::write_mut), which names no sector any more then.
    pub fn take_blocks(&mut self) -> Option<&'q mut [Sector]> {
        if !self.is_alone {
            return None;
        }
        let none: &'q mut [Sector] = &mut [];
        let memory = mem::replace(&mut self.raw.memory, none.as_mut_ptr().cast());
        let count = mem::replace(&mut self.raw.count, 0);
        // SAFETY: the request had it alone for 'q, with so many sectors, and has it no more; it isn't lent now
        Some(unsafe { slice::from_raw_parts_mut(memory.cast(), count as usize) })
    }
}

/// So many sectors; more than there can be are too many for each card.
fn number(sectors: usize) -> u32 {
    u32::try_from(sectors).unwrap_or(u32::MAX)
}

impl fmt::Debug for Request<'_> {
    fn fmt(&self, f: &mut fmt::Formatter<'_>) -> fmt::Result {
        f.debug_struct("Request")
            .field("kind", &self.raw.kind)
            .field("partition", &self.raw.part)
            .field("start", &self.raw.start)
            .field("count", &self.raw.count)
            .finish_non_exhaustive()
    }
}

/// A queue of requests for one card. [The module](crate::queue) tells how it is used.
///
/// What is lent to it, is lent for `'q`, as long as there can be a call for it: slots, lock, memory, and each request until its answer.
/// It is [`Sync`] where its lock is, and clients in several threads have `&Queue`. It keeps 464 bytes, where addresses have 64 bits, and
/// no heap.
pub struct Queue<'q, L: Lock = NoLock> {
    raw: UnsafeCell<CQueue>,
    has_worker: UnsafeCell<bool>,
    lock: &'q L,
    /// A queue of a long `'q` isn't one of a shorter, to which less could be lent.
    lent: PhantomData<fn(&'q ()) -> &'q ()>,
}

// SAFETY: what several threads do to it, they do under the lock; but for what the worker does, of which there is one. All that it points
// to was lent as what may be sent.
unsafe impl<L: Lock + Sync> Sync for Queue<'_, L> {}
// SAFETY: as before; its pointers lead to what is lent, not into itself.
unsafe impl<L: Lock + Sync> Send for Queue<'_, L> {}

impl<'q> Queue<'q> {
    /// A queue that isn't open yet, of as many requests as there are slots, 1 to 256, for one thread, in which its clients and its
    /// worker are.
    pub fn new(slots: &'q mut [Slot]) -> Queue<'q> {
        Queue::over(slots, &NoLock::HERE, None)
    }
}

impl<'q, L: Lock> Queue<'q, L> {
    /// The same, where several threads have it, or interrupts. One lock may be that of several queues.
    pub fn shared(slots: &'q mut [Slot], lock: &'q L) -> Queue<'q, L> {
        Queue::over(slots, lock, Some((self::lock::<L>, unlock::<L>)))
    }

    fn over(slots: &'q mut [Slot], lock: &'q L, calls: Option<(LockFn, LockFn)>) -> Queue<'q, L> {
        let nobody = CMember {
            request: ptr::null_mut(),
            start: 0,
            count: 0,
        };
        let raw = CQueue {
            card: ptr::null_mut(),
            slots: slots.as_mut_ptr(),
            count: slots.len(),
            gather: ptr::null_mut(),
            gather_sectors: 0,
            lock: calls.map(|(lock, _)| lock),
            unlock: calls.map(|(_, unlock)| unlock),
            wake: None,
            context: ptr::from_ref(lock).cast_mut().cast(),
            opened: CCard::NONE,
            next: 0,
            is_open: 0,
            is_turning: 0,
            members: [nobody; MOST_TOGETHER],
        };
        Queue {
            raw: UnsafeCell::new(raw),
            has_worker: UnsafeCell::new(false),
            lock,
            lent: PhantomData,
        }
    }

    /// Serves neighbours together, through this memory, 1 sector or more, of which 1,024 are used: no more sectors are joined than it
    /// has, and each is copied once. Without it each request is served by itself, by its own memory.
    pub fn gathering(mut self, memory: &'q mut [Sector]) -> Queue<'q, L> {
        let raw = self.raw.get_mut();
        raw.gather = memory.as_mut_ptr().cast();
        raw.gather_sectors = memory.len();
        self
    }

    /// Opens it at a card that is open: nothing waits then. Its worker has the card until the queue is closed.
    ///
    /// # Errors
    /// [`InService`](Error::InService), where it has a worker; [`Slots`](Error::Slots), where there are none, or more than 256;
    /// [`Gather`](Error::Gather), where there is memory to gather in of no sector; [`NotOpen`](Error::NotOpen), where the card isn't
    /// open.
    pub fn open<'w, W: Way>(
        &'w self,
        card: &'w mut SdCard<W>,
    ) -> Result<Worker<'w, 'q, W, L>, Error> {
        if self.exchange_worker(true) {
            return Err(Error::InService);
        }
        let mut worker = Worker { queue: self, card };
        // SAFETY: `with_card` has led the queue to the card; what else it leads to is lent for 'q
        Error::told(worker.with_card(|queue| unsafe { kelifandro_queue_open(queue) }))
            .map(|()| worker)
    }

    /// Notes whether there is a worker, and answers whether there was one.
    fn exchange_worker(&self, is_there: bool) -> bool {
        // SAFETY: it is looked at under the lock alone, which is unlocked here
        unsafe {
            self.lock.lock();
            let was_there = mem::replace(&mut *self.has_worker.get(), is_there);
            self.lock.unlock();
            was_there
        }
    }

    /// Lends a request to the queue, in which it waits. By the ticket its client asks for the answer, and has the request back with it;
    /// who drops the ticket, or forgets it, leaves the request to the queue, which serves it as any other.
    ///
    /// It doesn't wait for the card: clients call it from anywhere, also from a function of the card's host.
    ///
    /// # Errors
    /// The request, back, with the first of these that holds: [`NotOpen`](Error::NotOpen), where the queue isn't open;
    /// [`Kind`](Error::Kind), where the library was built without it; [`NoPartition`](Error::NoPartition); [`Count`](Error::Count),
    /// where it names no sector, or more than 1,024 of a read or a write; [`OutOfRange`](Error::OutOfRange); of all but a read
    /// [`ReadOnly`](Error::ReadOnly); of an erase or a trim [`NotErasable`](Error::NotErasable); [`Full`](Error::Full), where each
    /// slot is taken.
    pub fn submit<'t>(
        &'t self,
        request: &'q mut Request<'q>,
    ) -> Result<Ticket<'t, 'q, L>, Refused<&'q mut Request<'q>>> {
        let request = NonNull::from(request);
        // SAFETY: request and memory are borrowed for 'q, in which all calls for this queue lie; the reference is gone
        match unsafe { self.submit_at(request) } {
            Ok(()) => Ok(Ticket {
                queue: PhantomData,
                request,
                lent: PhantomData,
            }),
            Err(error) => Err(Refused {
                error,
                // SAFETY: it wasn't accepted: nobody else has it
                back: unsafe { &mut *request.as_ptr() },
            }),
        }
    }

    /// # Safety
    /// The request, and its memory, are there, and nobody else looks at them, until there is an answer, or no call for this queue.
    unsafe fn submit_at(&self, request: NonNull<Request<'_>>) -> Result<(), Error> {
        // SAFETY: the caller's
        let told = unsafe { kelifandro_submit(self.raw.get(), raw_of(request)) };
        if told == WAITING {
            Ok(())
        } else {
            Err(Error::of(told))
        }
    }

    /// Submits a request, and comes back once it has its answer: so its memory is borrowed for this call alone, and may be gone after
    /// it. `idle` is called over and over meanwhile: it sleeps, or yields; where the caller is the worker, too, it takes a turn.
    ///
    /// It doesn't come back while no worker takes turns. An `idle` that panics ends the program, as nothing else could keep the memory.
    ///
    /// # Errors
    /// Those of [`submit`](Queue::submit), or the answer: one of the five `Failed..`, or [`Closed`](Error::Closed).
    ///
    /// # Examples
    /// ```
    /// use kelifandro::queue::{Queue, Request, Slot};
    /// use kelifandro::{Partition, SdCard};
    /// use memory_card::MemoryCard;
    ///
    /// let mut card = SdCard::new(MemoryCard::sd());
    /// let mut slots = [Slot::FREE; 4];
    /// let queue = Queue::new(&mut slots);
    /// card.open()?;
    /// let mut worker = queue.open(&mut card)?;
    /// let blocks = [[7; 512]; 2];
    /// queue.carry_out(Request::write(Partition::User, 9, &blocks), || {
    ///     worker.turn();
    /// })?;
    /// # Ok::<(), kelifandro::Error>(())
    /// ```
    pub fn carry_out(&self, mut request: Request<'_>, mut idle: impl FnMut()) -> Result<(), Error> {
        let request = NonNull::from(&mut request);
        // SAFETY: this function has the request in its frame, which it doesn't leave before the answer
        unsafe { self.submit_at(request)? };
        let stay = Stay;
        loop {
            // SAFETY: it was submitted to this queue, which is borrowed
            let told = unsafe { kelifandro_answer(raw_of(request)) };
            if told != WAITING {
                mem::forget(stay);
                return Error::told(told);
            }
            idle();
        }
    }

    /// How many requests are without an answer; 0, where it isn't open.
    pub fn unanswered(&self) -> usize {
        // SAFETY: what it leads to is lent for 'q
        unsafe { kelifandro_unanswered(self.raw.get()) }
    }
}

impl<L: Lock> fmt::Debug for Queue<'_, L> {
    fn fmt(&self, f: &mut fmt::Formatter<'_>) -> fmt::Result {
        f.debug_struct("Queue")
            .field("unanswered", &self.unanswered())
            .finish_non_exhaustive()
    }
}

/// Dropped only where a panic unwinds: a second one ends the program.
struct Stay;

impl Drop for Stay {
    fn drop(&mut self) {
        panic!("kelifandro: a panic while a request waits");
    }
}

/// C's part of a request that may be lent: no reference is made.
///
/// # Safety
/// It is there.
unsafe fn raw_of(request: NonNull<Request<'_>>) -> *mut CRequest {
    // SAFETY: the caller's
    unsafe { ptr::addr_of_mut!((*request.as_ptr()).raw) }
}

/// A request that was accepted by a queue.
///
/// Nothing happens where it is dropped: the request stays in the queue.
#[must_use = "without it the request doesn't come back"]
pub struct Ticket<'t, 'q, L: Lock = NoLock> {
    /// The queue that has it, which isn't moved meanwhile: the request knows its address.
    queue: PhantomData<&'t Queue<'q, L>>,
    request: NonNull<Request<'q>>,
    lent: PhantomData<&'q mut Request<'q>>,
}

// SAFETY: it is a request that may be sent, and a queue that several threads may have.
unsafe impl<L: Lock + Sync> Send for Ticket<'_, '_, L> {}

impl<'t, 'q, L: Lock> Ticket<'t, 'q, L> {
    /// The answer, with the request, where there is one.
    ///
    /// # Errors
    /// The ticket, where the request waits, or is in service.
    pub fn answer(self) -> Result<Answered<'q>, Ticket<'t, 'q, L>> {
        // SAFETY: the request was submitted to this queue, which hasn't moved since: the ticket borrows it
        let told = unsafe { kelifandro_answer(raw_of(self.request)) };
        if told == WAITING {
            return Err(self);
        }
        Ok(Answered {
            result: Error::told(told),
            request: self.back(),
        })
    }

    /// Gives back a request that waits: it wasn't served.
    ///
    /// # Errors
    /// The ticket, with [`NotWaiting`](Error::NotWaiting), where there is an answer; or [`InService`](Error::InService), where it is in
    /// service, or failed together with others and is to be served alone.
    pub fn cancel(self) -> Result<&'q mut Request<'q>, Refused<Ticket<'t, 'q, L>>> {
        // SAFETY: as of `answer`
        let told = unsafe { kelifandro_cancel(raw_of(self.request)) };
        if told != DONE {
            let error = Error::of(told);
            return Err(Refused { error, back: self });
        }
        Ok(self.back())
    }

    /// The request, of which C keeps nothing any more.
    fn back(self) -> &'q mut Request<'q> {
        // SAFETY: it was borrowed for 'q, and C had it alone until now; there is no other ticket for it
        unsafe { &mut *self.request.as_ptr() }
    }
}

impl<L: Lock> fmt::Debug for Ticket<'_, '_, L> {
    fn fmt(&self, f: &mut fmt::Formatter<'_>) -> fmt::Result {
        f.debug_struct("Ticket").finish_non_exhaustive()
    }
}

/// Who serves a queue's requests, and has its card meanwhile: each queue has one at most.
///
/// Where it is dropped the queue is closed, as by [`close`](Worker::close). Where it is forgotten the queue stays open, takes requests as
/// long as there are slots, and serves none of them.
pub struct Worker<'w, 'q, W, L: Lock = NoLock> {
    queue: &'w Queue<'q, L>,
    card: &'w mut SdCard<W>,
}

impl<W: Way, L: Lock> Worker<'_, '_, W, L> {
    /// Makes a call for the queue, which leads to the card meanwhile, and the card to its way.
    fn with_card<T>(&mut self, call: impl FnOnce(*mut CQueue) -> T) -> T {
        let queue = self.queue.raw.get();
        let (way, card) = self.card.parts();
        way.with(&mut card.0, |card| {
            // SAFETY: the queue is there; at `card` look the worker's calls alone, and this is the worker
            unsafe { (*queue).card = card };
            let told = call(queue);
            // SAFETY: the same
            unsafe { (*queue).card = ptr::null_mut() };
            told
        })
    }

    /// Serves the oldest request, and with it those neighbours that may join it: of its partition and kind, reads or writes, 16 requests
    /// and 1,024 sectors at most, none of which passes an earlier one that it conflicts with. All of them are one request of the card.
    /// Where several failed they have no answer yet: one after the other is served alone in the turns that follow.
    ///
    /// Answers how many requests are without an answer now: 0, where nothing is left to do. It takes as long as that request of the card.
    pub fn turn(&mut self) -> usize {
        // SAFETY: `with_card` has led the queue to the card; requests in its slots are borrowed for 'q, or by `carry_out`
        self.with_card(|queue| unsafe { kelifandro_turn(queue) })
    }

    /// The card, of which [`healed`](SdCard::healed) and [`info`](SdCard::info) may be asked meanwhile.
    pub fn card(&self) -> &SdCard<W> {
        self.card
    }

    /// Closes the queue: it accepts nothing more, and each request that waits is answered by [`Closed`](Error::Closed). None of them
    /// was served, but of a write that failed together with others each sector is old or new. The card stays open, and the queue may be
    /// opened again.
    pub fn close(self) {}
}

impl<W, L: Lock> Drop for Worker<'_, '_, W, L> {
    fn drop(&mut self) {
        // SAFETY: requests in its slots are borrowed for 'q, or by `carry_out`. It looks at no card
        unsafe { kelifandro_queue_close(self.queue.raw.get()) };
        self.queue.exchange_worker(false);
    }
}

impl<W: Way, L: Lock> fmt::Debug for Worker<'_, '_, W, L> {
    fn fmt(&self, f: &mut fmt::Formatter<'_>) -> fmt::Result {
        f.debug_struct("Worker")
            .field("card", &self.card)
            .finish_non_exhaustive()
    }
}

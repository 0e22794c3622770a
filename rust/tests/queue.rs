//! A queue: what its requests leave on the card, which commands they become, what is refused, and clients and a worker in threads.

mod common;

use std::cell::{Cell, RefCell};
use std::mem;
use std::rc::Rc;
use std::sync::atomic::{AtomicBool, Ordering};
use std::sync::Barrier;
use std::thread;

use common::{by_blocks, by_dma, by_registers, by_transfer, sectors, HasCard, ADMA2, SDMA};
use kelifandro::queue::{Lock, Queue, Request, Slot, SpinLock, Ticket, Worker};
use kelifandro::{
    Abilities, BlockFault, Command, Error, Fault, Host, Ios, Partition, Response, SdCard, Sector,
    Way,
};
use memory_card::MemoryCard;

/// A host that notes the commands for blocks, and hears nothing of those for a certain sector.
struct Noting {
    card: MemoryCard,
    noted: Vec<(u8, u32)>,
    silent: Option<u32>,
    /// Set while the lock of a queue is locked, which isn't so while the card is spoken to.
    is_locked: Rc<Cell<bool>>,
}

impl Noting {
    fn new() -> Noting {
        Noting {
            card: MemoryCard::sd(),
            noted: Vec::new(),
            silent: None,
            is_locked: Rc::default(),
        }
    }
}

impl Host for Noting {
    fn abilities(&self) -> Abilities {
        self.card.abilities()
    }

    fn send(&mut self, command: &Command) -> Result<Response, Fault> {
        assert!(!self.is_locked.get());
        if [17, 18, 24, 25].contains(&command.index) {
            self.noted.push((command.index, command.argument));
            if self.silent == Some(command.argument) {
                return Err(Fault::Timeout);
            }
        }
        self.card.send(command)
    }

    fn read_block(&mut self, block: &mut [u8]) -> Result<(), BlockFault> {
        self.card.read_block(block)
    }

    fn write_block(&mut self, block: &Sector) -> Result<(), BlockFault> {
        self.card.write_block(block)
    }

    fn is_busy(&mut self, microseconds: u32) -> bool {
        self.card.is_busy(microseconds)
    }

    fn set_ios(&mut self, ios: Ios) {
        self.card.set_ios(ios);
    }

    fn pause(&mut self, _: u32) {}
}

/// A card that is open, behind that host.
fn noting() -> SdCard<Noting> {
    let mut card = SdCard::new(Noting::new());
    card.open().expect("open");
    card.way_mut().noted.clear();
    card
}

/// Submits all of them, in this order.
fn submit_all<'t, 'q, L: Lock>(
    queue: &'t Queue<'q, L>,
    requests: &'q mut [Request<'q>],
) -> Vec<Ticket<'t, 'q, L>> {
    let submitted = requests.iter_mut().map(|request| queue.submit(request));
    submitted.map(|told| told.expect("accepted")).collect()
}

/// The answers of requests of which none waits any more.
fn answers<L: Lock>(tickets: Vec<Ticket<'_, '_, L>>) -> Vec<Result<(), Error>> {
    let answered = tickets.into_iter().map(|ticket| ticket.answer());
    answered
        .map(|told| told.expect("it has its answer").result)
        .collect()
}

/// Writes of two sectors each, from sector 10 on, of which those with odd numbers come first.
fn neighbours(data: &[Sector]) -> Vec<Request<'_>> {
    let pieces = data.chunks_exact(2).zip((10..).step_by(2));
    let all: Vec<_> = pieces.collect();
    let odd = all.iter().skip(1).step_by(2);
    odd.chain(all.iter().step_by(2))
        .map(|(blocks, start)| Request::write(Partition::User, *start, blocks))
        .collect()
}

fn holds(card: &MemoryCard, start: u64, data: &[Sector]) -> bool {
    (start..)
        .zip(data)
        .all(|(at, block)| card.sector(Partition::User, at) == Some(block))
}

#[test]
fn neighbours_are_one_command() {
    let data = sectors(32, 1);
    for (room, commands) in [(0, 16), (4, 8), (32, 1), (2000, 1)] {
        let mut card = noting();
        let mut requests = neighbours(&data);
        let (mut slots, mut memory) = ([Slot::FREE; 16], vec![[0; 512]; room]);
        let mut queue = Queue::new(&mut slots);
        if room > 0 {
            queue = queue.gathering(&mut memory);
        }
        let mut worker = queue.open(&mut card).expect("open");
        let tickets = submit_all(&queue, &mut requests);
        assert_eq!(queue.unanswered(), 16);
        while worker.turn() > 0 {}
        assert_eq!(answers(tickets), [Ok(()); 16]);
        worker.close();
        let noted = &card.way().noted;
        assert_eq!(noted.len(), commands, "{noted:?}");
        assert!(noted.iter().all(|(index, _)| *index == 25));
        assert!(holds(&card.way().card, 10, &data));
    }
}

#[test]
fn reads_get_their_own_sectors() {
    let (mut card, data) = (noting(), sectors(8, 3));
    card.write(Partition::User, 20, &data).expect("write");
    card.way_mut().noted.clear();
    let (mut first, mut second) = ([[0; 512]; 5], [[0; 512]; 3]);
    let mut requests = [
        Request::read(Partition::User, 25, &mut second),
        Request::read(Partition::User, 20, &mut first).of_client(7),
    ];
    let (mut slots, mut memory) = ([Slot::FREE; 2], [[0; 512]; 8]);
    let queue = Queue::new(&mut slots).gathering(&mut memory);
    let mut worker = queue.open(&mut card).expect("open");
    let tickets = submit_all(&queue, &mut requests);
    assert_eq!(worker.turn(), 0);
    assert_eq!(worker.card().healed().attempts, 2);
    assert_eq!(answers(tickets), [Ok(()); 2]);
    worker.close();
    assert_eq!(card.way().noted, [(18, 20)]);
    assert_eq!((&first[..], &second[..]), (&data[..5], &data[5..]));
}

/// A write, a read of it before the write is served, an erase, and a read of what is left.
fn in_order<W: HasCard>(mut card: SdCard<W>) {
    let (data, erased) = (sectors(4, 9), [[0; 512]; 4]);
    let (mut before, mut after) = ([[1; 512]; 4], [[1; 512]; 4]);
    card.open().expect("open");
    let unit = card.info().expect("open").erase_unit as u32;
    let mut requests = [
        Request::write(Partition::User, 1024, &data),
        Request::read(Partition::User, 1024, &mut before),
        Request::erase(Partition::User, 1024, unit.max(4)),
        Request::read(Partition::User, 1024, &mut after),
    ];
    let (mut slots, mut memory) = ([Slot::FREE; 4], [[0; 512]; 8]);
    let queue = Queue::new(&mut slots).gathering(&mut memory);
    let mut worker = queue.open(&mut card).expect("open");
    let tickets = submit_all(&queue, &mut requests);
    let mut left = Vec::new();
    while left.last() != Some(&0) {
        left.push(worker.turn());
    }
    assert_eq!(left, [3, 2, 1, 0]);
    assert_eq!(answers(tickets), [Ok(()); 4]);
    drop(worker);
    assert_eq!((&before[..], after), (&data[..], erased));
    assert!(holds(card.way().card(), 1024, &erased));
}

#[test]
fn each_way_to_a_card() {
    for is_emmc in [false, true] {
        in_order(by_blocks(is_emmc));
        in_order(by_transfer(is_emmc));
        in_order(by_registers(is_emmc));
        in_order(by_dma(is_emmc, SDMA, &mut []));
        in_order(by_dma(is_emmc, ADMA2, &mut [0; 128]));
    }
}

#[test]
fn partitions_and_trims_of_an_emmc_device() {
    let mut card = by_blocks(true);
    card.open().expect("open");
    let mut requests = [
        Request::write(Partition::Boot1, 3, &[[5; 512]]),
        Request::write(Partition::User, 3, &[[6; 512]]),
        Request::write(Partition::User, 4, &[[7; 512]]),
        Request::trim(Partition::User, 4, 1),
    ];
    let mut slots = [Slot::FREE; 4];
    let queue = Queue::new(&mut slots);
    let mut worker = queue.open(&mut card).expect("open");
    let tickets = submit_all(&queue, &mut requests);
    while worker.turn() > 0 {}
    assert_eq!(answers(tickets), [Ok(()); 4]);
    drop(worker);
    assert_eq!(card.way().sector(Partition::Boot1, 3), Some(&[5; 512]));
    assert!(holds(card.way(), 3, &[[6; 512], [0; 512]]));
}

/// Each answer of the card is lost in turn, and damaged, while three requests are served together.
#[test]
fn lost_answers_are_healed() {
    let data = sectors(6, 4);
    let session = |answer: Option<u64>, is_damaged: bool| {
        let mut card = by_blocks(false);
        card.open().expect("open");
        match answer {
            Some(answer) if is_damaged => card.way_mut().damage(answer),
            _ => card.way_mut().lose(answer),
        }
        let begun = card.way().answers();
        let (mut requests, mut slots) = (neighbours(&data), [Slot::FREE; 3]);
        let mut memory = [[0; 512]; 6];
        let queue = Queue::new(&mut slots).gathering(&mut memory);
        let mut worker = queue.open(&mut card).expect("open");
        let tickets = submit_all(&queue, &mut requests);
        while worker.turn() > 0 {}
        assert_eq!(answers(tickets), [Ok(()); 3]);
        worker.close();
        assert!(holds(card.way(), 10, &data));
        (begun, card.way().answers())
    };
    let (begun, ended) = session(None, false);
    assert!(ended - begun > 8);
    for answer in begun..ended {
        session(Some(answer), false);
        session(Some(answer), true);
    }
}

#[test]
fn who_fails_fails_alone() {
    let (mut card, data) = (noting(), sectors(6, 5));
    card.way_mut().silent = Some(10);
    let (mut requests, mut slots) = (neighbours(&data), [Slot::FREE; 3]);
    let mut memory = [[0; 512]; 6];
    let queue = Queue::new(&mut slots).gathering(&mut memory);
    let mut worker = queue.open(&mut card).expect("open");
    let mut tickets = submit_all(&queue, &mut requests);
    assert_eq!(worker.turn(), 3, "they have failed together");
    let refused = tickets.remove(0).cancel().expect_err("it is to be served");
    assert_eq!(refused.error, Error::InService);
    tickets.insert(0, refused.back);
    assert_eq!([worker.turn(), worker.turn(), worker.turn()], [2, 1, 0]);
    let failed = Err(Error::FailedAnswer);
    assert_eq!(answers(tickets), [Ok(()), failed, Ok(())]);
    worker.close();
    assert!(holds(&card.way().card, 12, &data[2..]));
    assert!(holds(&card.way().card, 10, &[[0; 512]; 2]));
}

#[test]
fn what_is_given_back_isnt_served() {
    let (mut card, data) = (noting(), sectors(6, 6));
    let (mut requests, mut slots) = (neighbours(&data), [Slot::FREE; 3]);
    let mut memory = [[0; 512]; 6];
    let queue = Queue::new(&mut slots).gathering(&mut memory);
    let mut worker = queue.open(&mut card).expect("open");
    let mut tickets = submit_all(&queue, &mut requests);
    let request = tickets.remove(0).cancel().expect("it waits");
    assert_eq!(request.blocks(), &data[2..4]);
    assert_eq!(queue.unanswered(), 2);
    while worker.turn() > 0 {}
    let refused = tickets.remove(0).cancel().expect_err("it has its answer");
    assert_eq!(refused.error, Error::NotWaiting);
    assert_eq!(answers(vec![refused.back]), [Ok(())]);
    assert_eq!(answers(tickets), [Ok(())]);
    assert_eq!(worker.card().way().noted, [(25, 10), (25, 14)]);
    assert!(holds(&worker.card().way().card, 12, &[[0; 512]; 2]));
    let again = queue.submit(request).expect("it may be submitted again");
    assert_eq!(worker.turn(), 0);
    assert_eq!(answers(vec![again]), [Ok(())]);
    worker.close();
    assert!(holds(&card.way().card, 10, &data));
}

/// Memory that is taken out of a request, and comes again in another one.
#[test]
fn memory_comes_back() {
    let mut card = by_blocks(false);
    card.open().expect("open");
    let mut memory = [[0; 512]; 2];
    let mut request = Request::read(Partition::User, 7, &mut memory);
    let mut shared = Request::write(Partition::User, 7, &[[3; 512]]);
    let mut slots = [Slot::FREE; 2];
    let queue = Queue::new(&mut slots);
    let mut worker = queue.open(&mut card).expect("open");
    assert!(shared.take_blocks().is_none());
    assert_eq!(shared.blocks(), [[3; 512]]);
    let ticket = queue.submit(&mut request).expect("accepted");
    let ticket = ticket.answer().expect_err("it waits");
    worker.turn();
    let request = ticket.answer().expect("it has its answer").request;
    let blocks = request.take_blocks().expect("it has been lent alone");
    assert_eq!((request.blocks().len(), blocks.len()), (0, 2));
    let refused = queue.submit(request).expect_err("it names no sector");
    assert_eq!(refused.error, Error::Count);
    let request = refused.back;
    blocks[1] = [4; 512];
    *request = Request::write_mut(Partition::User, 9, blocks);
    let ticket = queue.submit(request).expect("accepted");
    worker.turn();
    let request = ticket.answer().expect("it has its answer").request;
    request.take_blocks().expect("again")[0] = [9; 512];
    drop(worker);
    assert_eq!(memory, [[9; 512], [4; 512]]);
    assert!(holds(card.way(), 9, &[[0; 512], [4; 512]]));
}

#[test]
fn queues_that_cant_be_opened() {
    let mut card = by_blocks(false);
    let (mut none, mut few, mut many) = ([], [Slot::FREE; 1], [Slot::FREE; 257]);
    let mut no_memory = [];
    let queue = Queue::new(&mut few);
    let refused = |queue: &Queue, card: &mut SdCard<MemoryCard>| queue.open(card).err();
    assert_eq!(refused(&queue, &mut card), Some(Error::NotOpen));
    card.open().expect("open");
    let mut other = by_blocks(true);
    other.open().expect("open");
    let mut worker = queue.open(&mut other).expect("open");
    assert_eq!(refused(&queue, &mut card), Some(Error::InService));
    assert_eq!(refused(&queue, &mut card), Some(Error::InService));
    let request = Request::trim(Partition::User, 0, 1);
    let told = queue.carry_out(request, || assert_eq!(worker.turn(), 0));
    assert_eq!(told, Ok(()), "the first one serves on");
    worker.close();
    assert_eq!(refused(&queue, &mut card), None);
    let queue = queue.gathering(&mut no_memory);
    assert_eq!(refused(&queue, &mut card), Some(Error::Gather));
    for slots in [&mut none[..], &mut many[..]] {
        assert_eq!(refused(&Queue::new(slots), &mut card), Some(Error::Slots));
    }
    let queue = Queue::new(&mut many[..256]);
    assert_eq!(refused(&queue, &mut card), None);
    mem::forget(queue.open(&mut card));
    assert_eq!(refused(&queue, &mut card), Some(Error::InService));
}

#[test]
fn requests_that_are_refused() {
    let mut card = noting();
    let (long, mut nothing) = ([[0; 512]; 1025], []);
    let mut requests = [
        (Request::erase(Partition::Boot1, 0, 1), Error::NoPartition),
        (
            Request::read(Partition::User, 0, &mut nothing),
            Error::Count,
        ),
        (Request::write(Partition::User, 0, &long), Error::Count),
        (Request::erase(Partition::User, 0, 0), Error::Count),
        (
            Request::write(Partition::User, 2047, &long[..2]),
            Error::OutOfRange,
        ),
        (
            Request::erase(Partition::User, u32::MAX, u32::MAX),
            Error::OutOfRange,
        ),
        (Request::trim(Partition::User, 0, 1), Error::NotErasable),
    ];
    let mut early = Request::write(Partition::User, 0, &long[..1024]);
    let mut full = Request::write(Partition::User, 0, &long[..1]);
    let mut slots = [Slot::FREE; 1];
    let queue = Queue::new(&mut slots);
    let refused = queue.submit(&mut early).expect_err("it isn't open");
    assert_eq!((refused.error, queue.unanswered()), (Error::NotOpen, 0));
    let mut worker = queue.open(&mut card).expect("open");
    for (request, error) in &mut requests {
        let refused = queue.submit(request).expect_err("it is refused");
        assert_eq!(refused.error, *error, "{:?}", refused.back);
        assert_eq!(refused.to_string(), error.to_string());
    }
    let ticket = queue.submit(refused.back).expect("accepted");
    let refused = queue.submit(&mut full).expect_err("no slot is free");
    assert_eq!(Error::from(refused), Error::Full);
    assert_eq!((worker.turn(), answers(vec![ticket])), (0, vec![Ok(())]));
    assert_eq!(worker.turn(), 0);
    worker.close();
    assert_eq!(card.way().noted, [(25, 0)]);
}

#[test]
fn a_full_queue_has_room_again() {
    let (mut card, data) = (noting(), sectors(600, 8));
    let starts = data.chunks_exact(2).zip((0..).step_by(4));
    let mut requests: Vec<_> = starts
        .map(|(blocks, start)| Request::write(Partition::User, start, blocks))
        .collect();
    let (mut slots, mut memory) = (vec![Slot::FREE; 256], vec![[0; 512]; 64]);
    let queue = Queue::new(&mut slots).gathering(&mut memory);
    let mut worker = queue.open(&mut card).expect("open");
    let (mut tickets, mut refusals) = (Vec::new(), 0);
    for mut request in requests.iter_mut() {
        while let Err(refused) = queue.submit(request).map(|ticket| tickets.push(ticket)) {
            assert_eq!(refused.error, Error::Full);
            refusals += 1;
            worker.turn();
            request = refused.back;
        }
    }
    assert_eq!(refusals, 300 - 256);
    while worker.turn() > 0 {}
    assert_eq!(answers(tickets), [Ok(()); 300]);
    drop(worker);
    for (blocks, start) in data.chunks_exact(2).zip((0..).step_by(4)) {
        assert!(holds(&card.way().card, start, blocks));
    }
}

/// A worker that is dropped, and then a queue that is, while requests wait.
#[test]
fn dropped_while_requests_wait() {
    let (mut card, mut data) = (noting(), sectors(6, 2));
    let (mut requests, mut slots) = (neighbours(&data), [Slot::FREE; 3]);
    let queue = Box::new(Queue::new(&mut slots));
    let mut worker = queue.open(&mut card).expect("open");
    let mut tickets = submit_all(&queue, &mut requests);
    worker.turn();
    drop(worker);
    let first = tickets.remove(0);
    assert_eq!(answers(vec![first]), [Ok(())]);
    assert_eq!(answers(tickets), [Err(Error::Closed); 2]);
    drop(queue);
    let mut requests = neighbours(&data);
    let queue = Box::new(Queue::new(&mut slots));
    mem::forget(queue.open(&mut card).expect("open"));
    mem::forget(submit_all(&queue, &mut requests));
    assert_eq!(queue.unanswered(), 3);
    drop(queue);
    data.fill([1; 512]);
    slots.fill(Slot::FREE);
    assert_eq!(card.way().noted.len(), 1);
    card.write(Partition::User, 0, &data)
        .expect("the card goes on");
}

/// A queue that is moved while requests wait whose tickets are forgotten, and opened again at another card.
#[test]
fn moved_and_opened_again() {
    let (mut first, mut second) = (noting(), by_transfer(true));
    second.open().expect("open");
    let data = sectors(6, 7);
    let (mut requests, mut slots) = (neighbours(&data), [Slot::FREE; 3]);
    let (mut late, lock) = (Request::write(Partition::Boot2, 1, &data), SpinLock::new());
    let (before, after) = requests.split_at_mut(2);
    let queue = Queue::shared(&mut slots, &lock);
    let worker = queue.open(&mut first).expect("open");
    mem::forget(submit_all(&queue, before));
    worker.close();
    let boxed = Box::new(queue);
    let mut worker = boxed.open(&mut second).expect("open");
    let tickets = submit_all(&boxed, after);
    let ticket = boxed.submit(&mut late).expect("a partition of this card");
    while worker.turn() > 0 {}
    assert_eq!(answers(tickets), [Ok(())]);
    assert_eq!(answers(vec![ticket]), [Ok(())]);
    worker.close();
    assert!(holds(second.way().card(), 14, &data[4..]));
    assert!(holds(second.way().card(), 10, &[[0; 512]; 4]), "closed");
    assert_eq!(
        second.way().card().sector(Partition::Boot2, 6),
        Some(&data[5])
    );
    assert!(first.way().noted.is_empty());
}

/// Threads that open one queue, each at a card of its own: one at a time is its worker, and whoever is refused leaves it alone.
#[test]
fn one_worker_at_a_time() {
    let (mut slots, lock) = ([Slot::FREE; 2], SpinLock::new());
    let queue = Queue::shared(&mut slots, &lock);
    let begun = Barrier::new(3);
    let work = |own: u8| {
        let (mut card, mut served) = (by_blocks(own == 2), 0);
        card.open().expect("open");
        begun.wait();
        while served < 100 {
            let Ok(mut worker) = queue.open(&mut card) else {
                continue;
            };
            let data = [[own * 80 + served / 2; 512]];
            let request = Request::write(Partition::User, served.into(), &data);
            let told = queue.carry_out(request, || assert_eq!(worker.turn(), 0));
            assert_eq!(told, Ok(()));
            worker.close();
            assert!(holds(card.way(), served.into(), &data));
            served += 1;
        }
    };
    thread::scope(|scope| {
        for own in 0..3 {
            scope.spawn({
                let work = &work;
                move || work(own)
            });
        }
    });
}

/// A lock of one thread that is never locked twice, and tells the host of the card.
struct Watched(Rc<Cell<bool>>);

// SAFETY: it isn't Sync, and one thread needs none
unsafe impl Lock for Watched {
    unsafe fn lock(&self) {
        assert!(!self.0.replace(true));
    }

    unsafe fn unlock(&self) {
        assert!(self.0.replace(false));
    }
}

#[test]
fn the_lock_isnt_held_while_the_card_is_spoken_to() {
    let (mut card, data) = (noting(), sectors(6, 2));
    let lock = Watched(card.way().is_locked.clone());
    let (mut requests, mut slots) = (neighbours(&data), [Slot::FREE; 3]);
    let queue = Queue::shared(&mut slots, &lock);
    let mut worker = queue.open(&mut card).expect("open");
    let mut tickets = submit_all(&queue, &mut requests);
    tickets.remove(1).cancel().expect("it waits");
    while worker.turn() > 0 {}
    assert_eq!(answers(tickets), [Ok(()); 2]);
    worker.close();
    assert!(!lock.0.get());
}

/// What a host that is a client, too, does within the next command: it submits a request, and asks to give back one in service.
#[derive(Default)]
struct Hook<'t, 'q> {
    request: Option<&'q mut Request<'q>>,
    served: Option<Ticket<'t, 'q>>,
}

struct Client<'t, 'q> {
    card: MemoryCard,
    queue: &'t Queue<'q>,
    hook: &'t RefCell<Hook<'t, 'q>>,
}

impl Host for Client<'_, '_> {
    fn abilities(&self) -> Abilities {
        self.card.abilities()
    }

    fn send(&mut self, command: &Command) -> Result<Response, Fault> {
        let mut hook = self.hook.borrow_mut();
        if let Some(request) = hook.request.take() {
            let ticket = hook.served.take().expect("one in service");
            let refused = ticket.cancel().expect_err("it is in service");
            assert_eq!(refused.error, Error::InService);
            assert!(refused.back.answer().is_err());
            hook.served = Some(self.queue.submit(request).expect("accepted"));
            assert_eq!(self.queue.unanswered(), 2);
        }
        self.card.send(command)
    }

    fn read_block(&mut self, block: &mut [u8]) -> Result<(), BlockFault> {
        self.card.read_block(block)
    }

    fn write_block(&mut self, block: &Sector) -> Result<(), BlockFault> {
        self.card.write_block(block)
    }

    fn is_busy(&mut self, microseconds: u32) -> bool {
        self.card.is_busy(microseconds)
    }

    fn set_ios(&mut self, ios: Ios) {
        self.card.set_ios(ios);
    }

    fn pause(&mut self, _: u32) {}
}

#[test]
fn a_host_is_a_client() {
    let [mut first, mut second] = [1, 2].map(|byte: u8| {
        let blocks = vec![[byte; 512]].leak();
        Request::write_mut(Partition::User, 7, blocks)
    });
    let mut slots = [Slot::FREE; 2];
    let queue = Queue::new(&mut slots);
    let hook = RefCell::new(Hook::default());
    let mut card = SdCard::new(Client {
        card: MemoryCard::sd(),
        queue: &queue,
        hook: &hook,
    });
    card.open().expect("open");
    let mut worker = queue.open(&mut card).expect("open");
    *hook.borrow_mut() = Hook {
        served: queue.submit(&mut first).ok(),
        request: Some(&mut second),
    };
    assert_eq!([worker.turn(), worker.turn()], [1, 0]);
    let ticket = hook.borrow_mut().served.take().expect("the second one");
    assert_eq!(answers(vec![ticket]), [Ok(())]);
    worker.close();
    assert!(holds(&card.way().card, 7, &[[2; 512]]));
}

/// Reads or writes of a client: eight sectors each, between those of the other.
fn starts(own: usize) -> impl Iterator<Item = u32> {
    (own as u32 * 8..).step_by(16)
}

fn writes_of((own, data): (usize, &Vec<Sector>)) -> Vec<Request<'_>> {
    let pieces = data.chunks_exact(8).zip(starts(own));
    pieces
        .map(|(blocks, start)| Request::write(Partition::User, start, blocks))
        .collect()
}

fn reads_of((own, back): (usize, &mut Vec<Sector>)) -> Vec<Request<'_>> {
    let pieces = back.chunks_exact_mut(8).zip(starts(own));
    pieces
        .map(|(blocks, start)| Request::read(Partition::User, start, blocks))
        .collect()
}

/// Submits a request, again and again while no slot is free.
fn submit<'t, 'q>(
    queue: &'t Queue<'q, SpinLock>,
    mut request: &'q mut Request<'q>,
) -> Ticket<'t, 'q, SpinLock> {
    loop {
        match queue.submit(request) {
            Ok(ticket) => return ticket,
            Err(refused) => {
                assert_eq!(refused.error, Error::Full);
                request = refused.back;
                thread::yield_now();
            }
        }
    }
}

fn wait(mut ticket: Ticket<'_, '_, SpinLock>) -> Result<(), Error> {
    loop {
        match ticket.answer() {
            Ok(answered) => return answered.result,
            Err(waiting) => ticket = waiting,
        }
        thread::yield_now();
    }
}

/// Submits all that a client has, and waits for the answers.
fn client<'q>(queue: &Queue<'q, SpinLock>, requests: &'q mut [Request<'q>]) {
    let submitted = requests.iter_mut().map(|request| submit(queue, request));
    let tickets: Vec<_> = submitted.collect();
    for ticket in tickets {
        assert_eq!(wait(ticket), Ok(()));
    }
}

/// A client that waits for each answer, by memory of its own.
fn patient_client(queue: &Queue<'_, SpinLock>, rounds: u8) {
    let (idle, full) = (thread::yield_now, Err(Error::Full));
    for round in 0..rounds {
        let (data, mut back) = ([[round; 512]; 3], [[0; 512]; 3]);
        while queue.carry_out(Request::write(Partition::User, 1700, &data), idle) == full {}
        while queue.carry_out(Request::read(Partition::User, 1700, &mut back), idle) == full {}
        assert_eq!(back, data);
    }
}

/// Two clients, of writes and of reads each, one that waits for each answer, and the worker, each a thread.
fn in_threads<'q, W: Way + Send>(
    queue: &Queue<'q, SpinLock>,
    worker: &mut Worker<'_, 'q, W, SpinLock>,
    requests: impl Iterator<Item = [&'q mut Vec<Request<'q>>; 2]>,
) {
    let (is_over, begun) = (AtomicBool::new(false), &Barrier::new(4));
    thread::scope(|scope| {
        scope.spawn(|| {
            begun.wait();
            while worker.turn() > 0 || !is_over.load(Ordering::SeqCst) {
                thread::yield_now();
            }
        });
        let patient = scope.spawn(move || {
            begun.wait();
            patient_client(queue, 25);
        });
        let clients = requests.map(|[writes, reads]| {
            scope.spawn(move || {
                begun.wait();
                client(queue, writes);
                client(queue, reads);
            })
        });
        let begun: Vec<_> = clients.chain([patient]).collect();
        let ended: Vec<_> = begun.into_iter().map(|one| one.join()).collect();
        is_over.store(true, Ordering::SeqCst);
        assert!(ended.iter().all(Result::is_ok));
    });
}

/// What one client has is between what the other has.
#[test]
fn threads() {
    let mut card = by_blocks(false);
    card.open().expect("open");
    let data = [sectors(800, 11), sectors(800, 12)];
    let mut back = [vec![[0; 512]; 800], vec![[0; 512]; 800]];
    let mut writes: Vec<_> = data.iter().enumerate().map(writes_of).collect();
    let mut reads: Vec<_> = back.iter_mut().enumerate().map(reads_of).collect();
    let (mut slots, mut memory, lock) = ([Slot::FREE; 24], [[0; 512]; 128], SpinLock::new());
    let queue = Queue::shared(&mut slots, &lock).gathering(&mut memory);
    let mut worker = queue.open(&mut card).expect("open");
    let requests = writes.iter_mut().zip(&mut reads);
    in_threads(&queue, &mut worker, requests.map(<[_; 2]>::from));
    assert_eq!(queue.unanswered(), 0);
    drop(worker);
    assert_eq!(back, data);
}

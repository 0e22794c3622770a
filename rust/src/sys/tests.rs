//! The structs are the header's, and so are the numbers that pass.

extern crate std;

use core::ffi::{c_char, CStr};
use core::mem::{offset_of, size_of};

use super::queue::{CQueue, CRequest, Queue, Request, Slot};
use super::*;

extern "C" {
    static kelifandro_rust_layout_length: usize;
    static kelifandro_rust_layout: [usize; LAYOUT.len()];
    fn kelifandro_queue_text(result: i32) -> *const c_char;
}

#[rustfmt::skip]
const LAYOUT: [usize; 102] = [
    size_of::<CCommand>(), offset_of!(CCommand, response), offset_of!(CCommand, data),
    offset_of!(CCommand, argument), offset_of!(CCommand, block_length), offset_of!(CCommand, blocks),
    size_of::<CMoved>(), offset_of!(CMoved, failed),
    size_of::<CHost>(), offset_of!(CHost, lines), offset_of!(CHost, high_speed), offset_of!(CHost, send),
    offset_of!(CHost, read_block), offset_of!(CHost, write_block), offset_of!(CHost, is_busy),
    offset_of!(CHost, set_ios), offset_of!(CHost, pause), offset_of!(CHost, transfer), offset_of!(CHost, set_power),
    offset_of!(CHost, is_inserted), offset_of!(CHost, is_write_protected),
    size_of::<CRegisters>(), offset_of!(CRegisters, read), offset_of!(CRegisters, write),
    offset_of!(CRegisters, pause), offset_of!(CRegisters, wait), offset_of!(CRegisters, read_port), offset_of!(CRegisters, write_port),
    offset_of!(CRegisters, lend), offset_of!(CRegisters, take_back), offset_of!(CRegisters, table),
    offset_of!(CRegisters, table_size), offset_of!(CRegisters, lines), offset_of!(CRegisters, is_there),
    offset_of!(CRegisters, is_by_words), offset_of!(CRegisters, capabilities),
    offset_of!(CRegisters, kept_interrupts),
    size_of::<CCard>(), offset_of!(CCard, kind), offset_of!(CCard, addressing), offset_of!(CCard, selected),
    offset_of!(CCard, lines), offset_of!(CCard, high_speed), offset_of!(CCard, read_only), offset_of!(CCard, trims),
    offset_of!(CCard, cmd23), offset_of!(CCard, erased_byte), offset_of!(CCard, rca), offset_of!(CCard, cid),
    offset_of!(CCard, csd), offset_of!(CCard, user), offset_of!(CCard, gp) + 24, offset_of!(CCard, erase_unit),
    size_of::<Healed>(), offset_of!(Healed, by_answer), offset_of!(Healed, by_recovery),
    offset_of!(Healed, settlings), offset_of!(Healed, resets),
    size_of::<CKelifandro>(), offset_of!(CKelifandro, registers), offset_of!(CKelifandro, card),
    offset_of!(CKelifandro, healed), offset_of!(CKelifandro, scr), offset_of!(CKelifandro, ext_csd),
    offset_of!(CKelifandro, attempts), offset_of!(CKelifandro, was_reset), offset_of!(CKelifandro, call), size_of::<u32>(),
    size_of::<CRequest>(), offset_of!(CRequest, part), offset_of!(CRequest, client), offset_of!(CRequest, start),
    offset_of!(CRequest, count), offset_of!(CRequest, memory), offset_of!(CRequest, answered),
    offset_of!(CRequest, context), offset_of!(CRequest, result), offset_of!(CRequest, ticket),
    offset_of!(CRequest, queue),
    size_of::<Slot>(), offset_of!(Slot, whose), offset_of!(Slot, start), offset_of!(Slot, count),
    offset_of!(Slot, client), offset_of!(Slot, state), offset_of!(Slot, kind), offset_of!(Slot, part),
    offset_of!(Slot, answer),
    size_of::<CQueue>(), offset_of!(CQueue, slots), offset_of!(CQueue, count), offset_of!(CQueue, gather),
    offset_of!(CQueue, gather_sectors), offset_of!(CQueue, lock), offset_of!(CQueue, unlock), offset_of!(CQueue, wake),
    offset_of!(CQueue, context), offset_of!(CQueue, opened), offset_of!(CQueue, next), offset_of!(CQueue, is_open),
    offset_of!(CQueue, is_turning), offset_of!(CQueue, members),
];

#[test]
fn structs_are_the_headers() {
    // SAFETY: src/layout.c has both, and the second one is looked at once it is as long
    unsafe {
        assert_eq!(LAYOUT.len(), kelifandro_rust_layout_length);
        assert_eq!(LAYOUT, kelifandro_rust_layout);
    }
}

/// What the documentation says that a card keeps.
#[test]
#[cfg(target_pointer_width = "64")]
fn a_card_is_776_bytes() {
    assert_eq!(size_of::<Raw>(), 776);
}

/// What the documentation says that a queue and its slots keep.
#[test]
#[cfg(target_pointer_width = "64")]
fn a_queue_is_464_bytes() {
    assert_eq!(size_of::<Queue<'_>>(), 464);
    assert_eq!(size_of::<Slot>(), 32);
}

#[test]
fn texts_are_the_librarys() {
    for error in Error::ALL.into_iter().chain([Error::Unknown(-99)]) {
        // SAFETY: it answers a text, whatever it is asked
        let text = unsafe { CStr::from_ptr(kelifandro_queue_text(error.number())) };
        assert_eq!(std::format!("{error}").as_bytes(), text.to_bytes());
    }
}

/// A host that answers what it is given.
struct Answers {
    heard: Result<Response, Fault>,
    moved: Moved,
    block: Result<(), BlockFault>,
}

impl Host for Answers {
    fn abilities(&self) -> crate::Abilities {
        crate::Abilities::new(Lines::One)
    }

    fn send(&mut self, _: &Command) -> Result<Response, Fault> {
        self.heard
    }

    fn read_block(&mut self, _: &mut [u8]) -> Result<(), BlockFault> {
        self.block
    }

    fn write_block(&mut self, _: &[u8; BLOCK]) -> Result<(), BlockFault> {
        self.block
    }

    fn is_busy(&mut self, _: u32) -> bool {
        true
    }

    fn set_ios(&mut self, _: Ios) {}

    fn pause(&mut self, _: u32) {}

    fn transfer(&mut self, _: &Command, _: Blocks<'_>) -> Result<(Response, Moved), Fault> {
        self.heard.map(|response| (response, self.moved))
    }
}

/// What C is told of a transfer: its number, the words of the response, and of the blocks how many are good, and which fault.
fn told(heard: Result<Response, Fault>, moved: Moved) -> (c_int, [u32; 4], u16, u8) {
    let mut host = Answers {
        heard,
        moved,
        block: Ok(()),
    };
    let context = ptr::from_mut(&mut host).cast();
    let command = CCommand {
        index: 12,
        response: 2,
        data: 0,
        argument: 0,
        block_length: 0,
        blocks: 0,
    };
    let (mut words, mut moved) = ([9; 4], CMoved { good: 9, failed: 9 });
    // SAFETY: the context is the host, and all else is there
    let number = unsafe {
        transfer::<Answers>(
            context,
            &command,
            words.as_mut_ptr(),
            ptr::null_mut(),
            0,
            &mut moved,
        )
    };
    (number, words, moved.good, moved.failed)
}

/// The numbers of kelifandro.h: `enum kelifandro_fault`, and `struct kelifandro_moved`.
#[test]
fn what_c_is_told_of_a_transfer() {
    let none = Ok(Response::None);
    assert_eq!(told(none, Moved::Good(3)), (0, [0; 4], 3, 0));
    assert_eq!(
        told(none, Moved::Failed(BlockFault::Bad)),
        (0, [0; 4], 0, 1)
    );
    assert_eq!(
        told(none, Moved::Failed(BlockFault::Missing)),
        (0, [0; 4], 0, 2)
    );
    assert_eq!(
        told(Ok(Response::Short(7)), Moved::Good(0)),
        (0, [7, 0, 0, 0], 0, 0)
    );
    assert_eq!(
        told(Ok(Response::Long([1, 2, 3, 4])), Moved::Good(0)),
        (0, [1, 2, 3, 4], 0, 0)
    );
    for (fault, number) in [
        (Fault::Timeout, 1),
        (Fault::BadCheck, 2),
        (Fault::BadEndBit, 3),
        (Fault::OtherIndex, 4),
    ] {
        assert_eq!(told(Err(fault), Moved::Good(3)), (number, [9; 4], 0, 0));
    }
}

/// The numbers of `read_block` and `write_block`.
#[test]
fn what_c_is_told_of_a_block() {
    for (block, number) in [
        (Ok(()), 0),
        (Err(BlockFault::Bad), 1),
        (Err(BlockFault::Missing), 2),
    ] {
        let mut host = Answers {
            heard: Ok(Response::None),
            moved: Moved::Good(0),
            block,
        };
        let context = ptr::from_mut(&mut host).cast();
        let mut bytes = [0; BLOCK];
        // SAFETY: the context is the host, and a block is there
        let (read, written) = unsafe {
            (
                read_block::<Answers>(context, bytes.as_mut_ptr().cast(), BLOCK),
                write_block::<Answers>(context, bytes.as_ptr().cast()),
            )
        };
        assert_eq!((read, written), (number, number));
    }
}

/// Each index, argument and size, and the numbers of `enum kelifandro_response` and `enum kelifandro_data`.
#[test]
fn what_a_host_is_told_of_a_command() {
    use ResponseKind::{R1b, R1, R2, R3, R6, R7};
    let command = |response, data| CCommand {
        index: 25,
        response,
        data,
        argument: 0x1234_5678,
        block_length: 512,
        blocks: 300,
    };
    let kinds = [ResponseKind::None, R1, R1b, R2, R3, R6, R7];
    for (number, response) in (0..).zip(kinds) {
        assert_eq!(command(number, 0).decoded().response, response);
    }
    for (number, data) in (0..).zip([DataKind::None, DataKind::Read, DataKind::Write]) {
        assert_eq!(command(1, number).decoded().data, data);
    }
    let Command {
        index,
        argument,
        block_length,
        blocks,
        ..
    } = command(1, 2).decoded();
    assert_eq!(
        (index, argument, block_length, blocks),
        (25, 0x1234_5678, 512, 300)
    );
}

/// The numbers of `enum kelifandro_kind` and `enum kelifandro_part`, and each sector.
#[test]
fn what_c_is_told_of_a_request() {
    let (mut alone, mut again, shared) = ([[0; BLOCK]; 2], [[0; BLOCK]; 3], [[0; BLOCK]; 4]);
    let memory = [
        alone.as_mut_ptr().cast_const(),
        shared.as_ptr(),
        again.as_mut_ptr().cast_const(),
        ptr::null(),
        ptr::null(),
    ];
    let requests = [
        Request::read(Partition::Boot2, 1, &mut alone),
        Request::write(Partition::Gp4, 2, &shared),
        Request::write_mut(Partition::User, 3, &mut again),
        Request::erase(Partition::User, u32::MAX, 6),
        Request::trim(Partition::Boot1, 5, u32::MAX),
    ];
    let counts = [2, 4, 3, 6, u32::MAX];
    let kinds = [(0, 2), (1, 6), (1, 0), (2, 0), (3, 1)];
    let starts = [1, 2, 3, u32::MAX, 5];
    for (at, request) in requests.into_iter().enumerate() {
        let raw = request.of_client(7).raw;
        assert_eq!((raw.kind, raw.part), kinds[at]);
        assert_eq!((raw.start, raw.count), (starts[at], counts[at]));
        assert_eq!(raw.memory.cast_const().cast(), memory[at]);
        assert_eq!((raw.client, raw.answered), (7, None));
    }
}

//! The calls to C.

use core::ffi::{c_int, c_void};

use alloc::boxed::Box;
use alloc::vec;

use kelifandro::{Command, Ios, Partition, Size};

use crate::{number_of_data, number_of_response};

type Room = *mut c_void;

extern "C" {
    fn memory_card_size() -> usize;
    fn memory_card_begin(memory: Room, is_emmc: c_int);
    fn memory_card_send(
        memory: Room,
        index: u8,
        response: u8,
        data: u8,
        argument: u32,
        block_length: u16,
        blocks: u16,
        words: *mut u32,
    ) -> c_int;
    fn memory_card_read_block(memory: Room, block: *mut u8, length: usize) -> c_int;
    fn memory_card_write_block(memory: Room, block: *const u8) -> c_int;
    fn memory_card_is_busy(memory: Room, microseconds: u32) -> c_int;
    fn memory_card_set_ios(memory: Room, lines: c_int, high_speed: c_int, hertz: u32);
    fn memory_card_sector(memory: Room, partition: u32, sector: u64) -> *mut u8;
    fn memory_card_lose(memory: Room, answer: u64, is_damaged: c_int);
    fn memory_card_answers(memory: *const c_void) -> u64;
    fn memory_card_lose_power(memory: Room);
    fn memory_card_slow(memory: Room, microseconds: u32);
    fn memory_card_enlarge(memory: Room, sectors: u32);
    fn memory_card_control(memory: Room, capabilities: u32);
    fn memory_card_read_register(memory: Room, offset: u32, size: u32) -> u32;
    fn memory_card_write_register(memory: Room, offset: u32, size: u32, value: u32);
    fn memory_card_lock(memory: Room, is_locked: c_int);
    fn memory_card_take_out(memory: Room);
    fn memory_card_bare(memory: Room);
    fn memory_card_moved(memory: *const c_void) -> u64;
    fn memory_card_misuses(memory: *const c_void) -> u64;
    fn memory_card_lend(memory: Room, bytes: *mut u8, n: usize, is_written: c_int) -> u64;
    fn memory_card_take_back(memory: Room, bytes: *mut u8, n: usize, is_written: c_int);
}

fn size(size: Size) -> u32 {
    match size {
        Size::Byte => 1,
        Size::Word => 4,
    }
}

/// C's struct, in a place of the heap that doesn't move: it has pointers to itself.
pub struct Memory(Box<[u64]>);

// SAFETY, of all calls here: the room is as large as C says and was begun; C keeps nothing of it elsewhere, but for the table of DMA.
impl Memory {
    pub fn new(is_emmc: bool) -> Memory {
        // SAFETY: it answers a number
        let bytes = unsafe { memory_card_size() };
        let mut memory = Memory(vec![0; bytes.div_ceil(8)].into_boxed_slice());
        // SAFETY: above
        unsafe { memory_card_begin(memory.room(), is_emmc.into()) };
        memory
    }

    fn room(&mut self) -> Room {
        self.0.as_mut_ptr().cast()
    }

    fn seen(&self) -> *const c_void {
        self.0.as_ptr().cast()
    }

    pub fn send(&mut self, command: &Command) -> Result<[u32; 4], c_int> {
        let (response, data) = (
            number_of_response(command.response),
            number_of_data(command.data),
        );
        let Command {
            index,
            argument,
            block_length,
            blocks,
            ..
        } = *command;
        let mut words = [0; 4];
        // SAFETY: above; there are four words
        let fault = unsafe {
            memory_card_send(
                self.room(),
                index,
                response,
                data,
                argument,
                block_length,
                blocks,
                words.as_mut_ptr(),
            )
        };
        if fault == 0 {
            Ok(words)
        } else {
            Err(fault)
        }
    }

    pub fn read_block(&mut self, block: &mut [u8]) -> c_int {
        // SAFETY: above; the block has so many bytes
        unsafe { memory_card_read_block(self.room(), block.as_mut_ptr(), block.len()) }
    }

    pub fn write_block(&mut self, block: &[u8]) -> c_int {
        assert_eq!(block.len(), 512);
        // SAFETY: above; the block has 512 bytes
        unsafe { memory_card_write_block(self.room(), block.as_ptr()) }
    }

    pub fn is_busy(&mut self, microseconds: u32) -> bool {
        // SAFETY: above
        unsafe { memory_card_is_busy(self.room(), microseconds) != 0 }
    }

    pub fn set_ios(&mut self, ios: Ios) {
        // SAFETY: above
        unsafe {
            memory_card_set_ios(
                self.room(),
                ios.lines.count().into(),
                ios.high_speed.into(),
                ios.hertz,
            )
        }
    }

    fn sector_at(&self, partition: Partition, sector: u64) -> *mut u8 {
        // SAFETY: above; it looks for the place alone
        unsafe { memory_card_sector(self.seen().cast_mut(), partition as u32, sector) }
    }

    pub fn sector(&self, partition: Partition, sector: u64) -> Option<&[u8; 512]> {
        // SAFETY: it is null, or has 512 bytes within the room, which is borrowed
        unsafe {
            self.sector_at(partition, sector)
                .cast::<[u8; 512]>()
                .as_ref()
        }
    }

    pub fn sector_mut(&mut self, partition: Partition, sector: u64) -> Option<&mut [u8; 512]> {
        // SAFETY: as of `sector`; the room is borrowed alone
        unsafe {
            memory_card_sector(self.room(), partition as u32, sector)
                .cast::<[u8; 512]>()
                .as_mut()
        }
    }

    pub fn lose(&mut self, answer: Option<u64>, is_damaged: bool) {
        // SAFETY: above
        unsafe { memory_card_lose(self.room(), answer.unwrap_or(u64::MAX), is_damaged.into()) }
    }

    pub fn answers(&self) -> u64 {
        // SAFETY: above
        unsafe { memory_card_answers(self.seen()) }
    }

    pub fn lose_power(&mut self) {
        // SAFETY: above
        unsafe { memory_card_lose_power(self.room()) }
    }

    pub fn slow(&mut self, microseconds: u32) {
        // SAFETY: above
        unsafe { memory_card_slow(self.room(), microseconds) }
    }

    pub fn enlarge(&mut self, sectors: u32) {
        // SAFETY: above
        unsafe { memory_card_enlarge(self.room(), sectors) }
    }

    pub fn control(&mut self, capabilities: u32) {
        // SAFETY: above
        unsafe { memory_card_control(self.room(), capabilities) }
    }

    pub fn read_register(&mut self, offset: u32, access: Size) -> u32 {
        // SAFETY: above; a controller was put before the card
        unsafe { memory_card_read_register(self.room(), offset, size(access)) }
    }

    pub fn write_register(&mut self, offset: u32, access: Size, value: u32) {
        // SAFETY: as of `read_register`
        unsafe { memory_card_write_register(self.room(), offset, size(access), value) }
    }

    pub fn lock(&mut self, is_locked: bool) {
        // SAFETY: above
        unsafe { memory_card_lock(self.room(), is_locked.into()) }
    }

    pub fn take_out(&mut self) {
        // SAFETY: above
        unsafe { memory_card_take_out(self.room()) }
    }

    pub fn bare(&mut self) {
        // SAFETY: above
        unsafe { memory_card_bare(self.room()) }
    }

    pub fn moved(&self) -> u64 {
        // SAFETY: above
        unsafe { memory_card_moved(self.seen()) }
    }

    pub fn misuses(&self) -> u64 {
        // SAFETY: above
        unsafe { memory_card_misuses(self.seen()) }
    }

    /// # Safety
    /// The bytes are there until they are taken back, and may be written to where that is asked.
    pub unsafe fn lend(&mut self, bytes: *mut u8, length: usize, is_written: bool) -> u64 {
        // SAFETY: above, and the caller's
        unsafe { memory_card_lend(self.room(), bytes, length, is_written.into()) }
    }

    /// # Safety
    /// They were lent.
    pub unsafe fn take_back(&mut self, bytes: *mut u8, length: usize, is_written: bool) {
        // SAFETY: above, and the caller's
        unsafe { memory_card_take_back(self.room(), bytes, length, is_written.into()) }
    }
}

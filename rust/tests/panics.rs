//! A host that panics ends the program, and unwinds through nothing; so does who waits for an answer, whose memory is lent.
#![cfg(unix)]

use std::os::unix::process::ExitStatusExt;
use std::panic::{catch_unwind, AssertUnwindSafe};
use std::process::{Command, Stdio};

use kelifandro::queue::{Queue, Request, Slot};
use kelifandro::{
    Abilities, Blocks, Fault, Ios, Lines, Moved, Partition, Response, SdCard, TransferHost,
};
use memory_card::MemoryCard;

struct Panics;

impl TransferHost for Panics {
    fn abilities(&self) -> Abilities {
        Abilities::new(Lines::One)
    }

    fn transfer(
        &mut self,
        _: &kelifandro::Command,
        _: Blocks<'_>,
    ) -> Result<(Response, Moved), Fault> {
        panic!("by a host");
    }

    fn is_busy(&mut self, _: u32) -> bool {
        false
    }

    fn set_ios(&mut self, _: Ios) {}

    fn pause(&mut self, _: u32) {}
}

/// What the other one runs, in a process of its own.
#[test]
#[ignore = "it ends the program"]
fn panics() {
    let _ = catch_unwind(AssertUnwindSafe(|| SdCard::by_transfer(Panics).open()));
}

/// The same, of one that panics while its request waits.
#[test]
#[ignore = "it ends the program"]
fn panics_while_it_waits() {
    let mut card = SdCard::new(MemoryCard::sd());
    let mut slots = [Slot::FREE; 1];
    let queue = Queue::new(&mut slots);
    card.open().expect("open");
    let _worker = queue.open(&mut card).expect("open");
    let _ = catch_unwind(AssertUnwindSafe(|| {
        let data = [[1; 512]];
        queue.carry_out(Request::write(Partition::User, 7, &data), || {
            panic!("by a client")
        })
    }));
}

/// Runs one of them, which ends by SIGABRT.
fn aborts(test: &str) {
    let own = std::env::current_exe().expect("this program");
    let mut child = Command::new(own);
    child
        .args(["--exact", test, "--ignored"])
        .stdout(Stdio::null())
        .stderr(Stdio::null());
    let status = child.status().expect("it runs");
    assert_eq!(status.signal(), Some(6), "{status}");
}

#[test]
fn a_host_that_panics_ends_the_program() {
    aborts("panics");
}

#[test]
fn a_client_that_panics_while_its_request_waits_ends_the_program() {
    aborts("panics_while_it_waits");
}

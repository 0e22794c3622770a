//! What the program has in place of a system: where it begins and ends, memory, and what becomes of a panic.

use core::alloc::{GlobalAlloc, Layout};
use core::arch::asm;
use core::cell::UnsafeCell;
use core::panic::PanicInfo;
use core::ptr;

/// Room for two cards, which come and go one after the other.
const ROOM: usize = 4 << 20;

#[repr(align(16))]
struct Bytes(UnsafeCell<[u8; ROOM]>);

/// Memory in a row, which is given from its begin on again once all is back.
struct Row {
    bytes: Bytes,
    used: UnsafeCell<usize>,
    held: UnsafeCell<usize>,
}

// SAFETY: there is one thread.
unsafe impl Sync for Row {}

// SAFETY: no byte is given twice before all are back, and a size within the room is aligned as asked, up to 16.
unsafe impl GlobalAlloc for Row {
    unsafe fn alloc(&self, layout: Layout) -> *mut u8 {
        // SAFETY: there is one thread
        let (used, held) = unsafe { (&mut *self.used.get(), &mut *self.held.get()) };
        let size = layout.size().next_multiple_of(16);
        if layout.align() > 16 || size > ROOM - *used {
            return ptr::null_mut();
        }
        let at = *used;
        *used += size;
        *held += 1;
        // SAFETY: it lies in the room
        unsafe { self.bytes.0.get().cast::<u8>().add(at) }
    }

    unsafe fn dealloc(&self, _: *mut u8, _: Layout) {
        // SAFETY: there is one thread
        let (used, held) = unsafe { (&mut *self.used.get(), &mut *self.held.get()) };
        *held -= 1;
        if *held == 0 {
            *used = 0;
        }
    }
}

#[global_allocator]
static MEMORY: Row = Row {
    bytes: Bytes(UnsafeCell::new([0; ROOM])),
    used: UnsafeCell::new(0),
    held: UnsafeCell::new(0),
};

#[cfg(target_arch = "riscv64")]
core::arch::global_asm!(".globl _start\n_start:\n.option push\n.option norelax\nla gp, __global_pointer$\n.option pop\nj begin");
#[cfg(target_arch = "riscv32")]
core::arch::global_asm!(".globl _start\n_start:\n.option push\n.option norelax\nla gp, __global_pointer$\n.option pop\nj begin");
#[cfg(target_arch = "aarch64")]
core::arch::global_asm!(".globl _start\n_start:\nb begin");
#[cfg(target_arch = "arm")]
core::arch::global_asm!(".globl _start\n.thumb_func\n_start:\nbl begin");

#[no_mangle]
extern "C" fn begin() -> ! {
    end(if crate::run() { 0 } else { 1 })
}

/// Linux's call for the end of a program.
fn end(status: i32) -> ! {
    // SAFETY: it doesn't come back
    unsafe {
        #[cfg(target_arch = "arm")]
        asm!("movs r7, #1", "svc #0", in("r0") status, options(noreturn));
        #[cfg(target_arch = "aarch64")]
        asm!("svc #0", in("x8") 93, in("x0") status, options(noreturn));
        #[cfg(any(target_arch = "riscv32", target_arch = "riscv64"))]
        asm!("ecall", in("a7") 93, in("a0") status, options(noreturn));
    }
}

#[panic_handler]
fn panic(_: &PanicInfo<'_>) -> ! {
    end(2)
}

/// What GNU's linker finds named in tables of unwinding, which nobody reads here.
#[cfg(target_arch = "arm")]
#[no_mangle]
extern "C" fn __aeabi_unwind_cpp_pr0() {}

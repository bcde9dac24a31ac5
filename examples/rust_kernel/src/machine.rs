//! The machine without its memory: what the loader tells, the serial line, page faults, and the end.

use crate::levels::{VirtAddr, LEVELS};
use core::fmt::{self, Write};
use core::sync::atomic::{AtomicU64, Ordering};
use x86_64_paging::access::PageFaultCode;
use x86_64_paging::kernel::registers::control::Cr2;

core::arch::global_asm!(".set LEVELS, {levels}", include_str!("boot.s"), levels = const LEVELS);

unsafe extern "C" {
    fn page_fault_entry();
    fn try_read(address: u64) -> bool;
    fn try_write(address: u64, value: u64) -> bool;
    fn give_up();
}

/// A range of physical memory, as a loader of the protocol PVH tells it.
#[repr(C)]
pub struct Region {
    pub start: u64,
    pub size: u64,
    /// 1 stands for usable memory.
    pub kind: u32,
    reserved: u32,
}

/// What the loader tells.
#[repr(C)]
pub struct StartInfo {
    head: [u64; 5],
    regions_at: u64,
    region_count: u32,
}

impl StartInfo {
    /// Returns the ranges of memory.
    ///
    /// # Safety
    ///
    /// All memory of the loader is mapped at the offset.
    pub unsafe fn regions(&self, offset: VirtAddr) -> &[Region] {
        // SAFETY: the caller promises it, and the loader has counted them.
        unsafe { core::slice::from_raw_parts((offset + self.regions_at).as_ptr(), self.region_count as usize) }
    }
}

/// The serial line.
pub struct Serial;

impl Write for Serial {
    fn write_str(&mut self, text: &str) -> fmt::Result {
        text.bytes().for_each(|byte| put_byte(0x3f8, byte));
        Ok(())
    }
}

/// Prints a line to the serial line.
#[macro_export]
macro_rules! println {
    ($($format:tt)*) => { { use core::fmt::Write; writeln!($crate::machine::Serial, $($format)*).unwrap() } };
}

/// Writes a byte to a port: that of the serial line, or that by which QEMU ends.
fn put_byte(port: u16, byte: u8) {
    // SAFETY: neither changes memory.
    unsafe { core::arch::asm!("out dx, al", in("dx") port, in("al") byte, options(nomem, nostack, preserves_flags)) };
}

/// Ends QEMU, whose status is 33 or 35 then.
pub fn end(is_good: bool) -> ! {
    put_byte(0xf4, if is_good { 16 } else { 17 });
    loop {
        // SAFETY: it waits.
        unsafe { core::arch::asm!("hlt") };
    }
}

#[panic_handler]
fn panic(info: &core::panic::PanicInfo) -> ! {
    println!("kernel: {info}");
    end(false)
}

/// Lets page faults come to `page_fault`. Other exceptions reset the machine, which ends QEMU.
pub fn init() {
    static mut GATES: [[u64; 2]; 15] = [[0; 2]; 15];
    #[repr(C, packed)]
    struct Pointer(u16, *const [[u64; 2]; 15]);
    let entry = page_fault_entry as *const () as u64;
    // The gate of exception 14: an interrupt gate (0x8e) with the code segment 8 and the stack IST1.
    let gate = [entry & 0xffff | 8 << 16 | 0x8e01 << 32 | (entry >> 16 & 0xffff) << 48, entry >> 32];
    let gates = &raw mut GATES;
    // SAFETY: nothing else uses the gates, which stay where they are, and this one leads to code of boot.s.
    unsafe {
        (*gates)[14] = gate;
        core::arch::asm!("lidt [{}]", in(reg) &Pointer(15 * 16 - 1, gates), options(readonly, nostack, preserves_flags));
    }
}

/// What the processor pushes.
#[repr(C)]
struct Trapped {
    code: u64,
    rip: u64,
}

static LAST_CODE: AtomicU64 = AtomicU64::new(0);

/// Called by boot.s.
#[unsafe(no_mangle)]
extern "C" fn page_fault(trapped: &mut Trapped) {
    if ![try_read as *const () as u64, try_write as *const () as u64].contains(&trapped.rip) {
        panic!("page fault at {:#x}, code {:#x}, by {:#x}", Cr2::read_raw(), trapped.code, trapped.rip);
    }
    LAST_CODE.store(trapped.code, Ordering::Relaxed);
    trapped.rip = give_up as *const () as u64;
}

/// Reads 8 bytes at an address, or writes them, or returns the error code of the page fault.
pub fn access(address: VirtAddr, written: Option<u64>) -> Result<(), PageFaultCode> {
    let arrives = match written {
        // SAFETY: a read has no effect, and whoever writes chooses an address that nothing else uses.
        None => unsafe { try_read(address.as_u64()) },
        Some(value) => unsafe { try_write(address.as_u64(), value) },
    };
    if arrives {
        return Ok(());
    }
    assert_eq!(Cr2::read_raw(), address.as_u64());
    Err(PageFaultCode::from_bits_retain(LAST_CODE.load(Ordering::Relaxed)))
}

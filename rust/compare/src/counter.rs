//! What a program does that is counted by tools/count.c.

/// Tells the counter where we are, by a system call that no kernel has.
#[inline(never)]
pub fn mark(number: u64) {
    #[cfg(all(target_arch = "x86_64", target_os = "linux"))]
    unsafe {
        std::arch::asm!("syscall", inlateout("rax") 0x5A5Au64 => _, in("rdi") number, lateout("rcx") _, lateout("r11") _, options(nostack))
    }
    #[cfg(not(all(target_arch = "x86_64", target_os = "linux")))]
    let _ = number;
}

/// The same value, of which the compiler knows nothing: `std::hint::black_box` is younger than the oldest compiler we take.
#[inline(always)]
pub fn opaque<T>(value: T) -> T {
    unsafe { std::arch::asm!("/* {0} */", in(reg) &value, options(nostack)) };
    value
}

/// Room at a fixed place within a cache line, so that copies take the same way each time.
#[repr(align(64))]
pub struct Buffer(pub [u8; 65_536]);

impl Buffer {
    pub fn of(bytes: &[u8]) -> Box<Buffer> {
        let mut buffer = Box::new(Buffer([0; 65_536]));
        buffer.0[..bytes.len()].copy_from_slice(bytes);
        buffer
    }
}

//! The proved library's own calls, as `host/include/einflyga.h` documents them.

extern "C" {
    pub fn einflyga_fresh(state: *mut u16);
    pub fn einflyga_reset(state: *mut u16);
    pub fn einflyga_write_pointer(state: *mut u16, pointer: u16);
    pub fn einflyga_read_pointer(state: *const u16) -> u16;
    pub fn einflyga_write(state: *mut u16, value: u16) -> u32;
    pub fn einflyga_read(state: *const u16) -> u32;
    pub fn einflyga_line(state: *mut u16, channel: u32, active: bool) -> u32;
    pub fn einflyga_acknowledge(state: *mut u16) -> u32;
    pub fn einflyga_step(
        state: *mut u16,
        eop: bool,
        memory: *mut u8,
        memory_length: usize,
        io: *mut u8,
        io_length: usize,
    ) -> u32;
    pub fn einflyga_run(
        state: *mut u16,
        budget: u32,
        memory: *mut u8,
        memory_length: usize,
        io: *mut u8,
        io_length: usize,
    ) -> u64;
    pub fn einflyga_why(
        state: *const u16,
        channel: u32,
        memory_length: usize,
        io_length: usize,
    ) -> u32;
}

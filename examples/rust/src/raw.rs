//! The calls as `include/gridlay.h` has them. `tools/test_library.sh` compares the two.

#[repr(C)]
pub struct Handle {
    pub full: bool,
    pub at: *mut u8,
}

#[repr(C)]
#[derive(Clone, Copy, Debug, Default, PartialEq, Eq)]
pub struct Rect {
    pub x: i64,
    pub y: i64,
    pub width: i64,
    pub height: i64,
}

#[repr(C)]
#[derive(Clone, Copy, Debug, Default, PartialEq, Eq)]
pub struct Fault {
    pub line: u32,
    pub column: u32,
    pub fault: u8,
}

#[repr(C)]
#[derive(Clone, Copy, Debug, Default, PartialEq, Eq)]
pub struct Counts {
    pub measured: u64,
    pub added: u64,
}

pub const OK: u8 = 0;
pub const ROOM: u8 = 1;
pub const NONE: u8 = 2;
pub const REFUSED: u8 = 3;
pub const CLOSED: u8 = 4;
pub const STALE: u8 = 5;
pub const MEMORY: u8 = 6;
pub const LIMIT: u8 = 7;
pub const LONG: u8 = 8;

extern "C" {
    pub fn gridlay_open(page: *mut Handle, text: *const u8, size: usize, fault: *mut Fault) -> u8;
    pub fn gridlay_edit(page: *mut Handle, line: *const u8, size: usize, fault: *mut Fault) -> u8;
    pub fn gridlay_layout(page: *mut Handle, counts: *mut Counts) -> u8;
    pub fn gridlay_count(page: *mut Handle, count: *mut usize) -> u8;
    pub fn gridlay_boxes(page: *mut Handle, room: *mut Rect, size: usize, count: *mut usize) -> u8;
    pub fn gridlay_box_of(page: *mut Handle, name: *const u8, size: usize, rect: *mut Rect) -> u8;
    pub fn gridlay_name(
        page: *mut Handle,
        index: usize,
        room: *mut u8,
        size: usize,
        length: *mut usize,
    ) -> u8;
    pub fn gridlay_changed(
        page: *mut Handle,
        room: *mut usize,
        size: usize,
        count: *mut usize,
    ) -> u8;
    pub fn gridlay_hit(page: *mut Handle, x: i64, y: i64, index: *mut usize) -> u8;
    pub fn gridlay_print(page: *mut Handle, room: *mut u8, size: usize, length: *mut usize) -> u8;
    pub fn gridlay_write(page: *mut Handle, room: *mut u8, size: usize, length: *mut usize) -> u8;
    pub fn gridlay_close(page: *mut Handle);
    pub fn gridlay_answer(
        input: *const u8,
        size: usize,
        room: *mut u8,
        room_size: usize,
        length: *mut usize,
    ) -> u8;
}

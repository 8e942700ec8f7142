//! The calls of cidrask.h, declared for the programs in Rust that link the library.

#[link(name = "cidrask", kind = "static")]
extern "C" {
    pub fn cidrask_route(board: *const u8, board_length: usize, buffer: *mut u8, buffer_length: usize, first: *mut u64, second: *mut u64) -> u32;
    pub fn cidrask_wire(board: *const u8, board_length: usize, first: *mut u64, second: *mut u64) -> u32;
    pub fn cidrask_judge(
        board: *const u8, board_length: usize, list: *const u8, list_length: usize, first: *mut u64, second: *mut u64, third: *mut u64,
    ) -> u32;
    pub fn cidrask_alike(
        board: *const u8, board_length: usize, one: *const u8, one_length: usize, two: *const u8, two_length: usize, first: *mut u64,
        second: *mut u64,
    ) -> u32;
    pub fn cidrask_draw(
        board: *const u8, board_length: usize, list: *const u8, list_length: usize, page: *mut u8, page_length: usize, first: *mut u64,
    ) -> u32;
}

//! The proved library, by its exported functions.
#[repr(C)]
#[derive(Clone, Copy, Debug, Default, PartialEq)]
pub struct Node {
    pub depth: u8,
    pub byte: u8,
    pub first: u16,
    pub next: u16,
    pub back: u16,
    pub mask: u64,
}

#[link(name = "bench_export", kind = "static")]
unsafe extern "C" {
    fn yivalondo_link_build(
        list: *const u8,
        length: usize,
        table: *mut Node,
        entries: usize,
    ) -> usize;
    fn yivalondo_link_mount(
        list: *const u8,
        length: usize,
        table: *const Node,
        entries: usize,
    ) -> bool;
    fn yivalondo_link_run(
        list: *const u8,
        length: usize,
        table: *const Node,
        entries: usize,
        image: *const u8,
        size: usize,
    ) -> u64;
    fn yivalondo_shift_build(
        list: *const u8,
        length: usize,
        table: *mut u64,
        numbers: usize,
    ) -> usize;
    fn yivalondo_shift_mount(
        list: *const u8,
        length: usize,
        table: *const u64,
        numbers: usize,
    ) -> bool;
    fn yivalondo_shift_run(
        list: *const u8,
        length: usize,
        table: *const u64,
        numbers: usize,
        image: *const u8,
        size: usize,
    ) -> u64;
}

/// Room for the table of any list.
pub fn link_room() -> Vec<Node> {
    vec![Node::default(); 64 * 64 + 1]
}

pub fn link_build(list: &[u8], table: &mut [Node]) -> usize {
    unsafe { yivalondo_link_build(list.as_ptr(), list.len(), table.as_mut_ptr(), table.len()) }
}

pub fn link_mount(list: &[u8], table: &[Node]) -> bool {
    unsafe { yivalondo_link_mount(list.as_ptr(), list.len(), table.as_ptr(), table.len()) }
}

pub fn link_run(list: &[u8], table: &[Node], image: &[u8]) -> u64 {
    unsafe {
        yivalondo_link_run(
            list.as_ptr(),
            list.len(),
            table.as_ptr(),
            table.len(),
            image.as_ptr(),
            image.len(),
        )
    }
}

pub fn shift_build(list: &[u8], table: &mut [u64]) -> usize {
    unsafe { yivalondo_shift_build(list.as_ptr(), list.len(), table.as_mut_ptr(), table.len()) }
}

pub fn shift_mount(list: &[u8], table: &[u64]) -> bool {
    unsafe { yivalondo_shift_mount(list.as_ptr(), list.len(), table.as_ptr(), table.len()) }
}

pub fn shift_run(list: &[u8], table: &[u64], image: &[u8]) -> u64 {
    unsafe {
        yivalondo_shift_run(
            list.as_ptr(),
            list.len(),
            table.as_ptr(),
            table.len(),
            image.as_ptr(),
            image.len(),
        )
    }
}

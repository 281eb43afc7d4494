//! The library's entries, as C sees them. A slice is a pointer and a length.

extern "C" {
    fn hirvelan_check(text: *const u8, length: usize, answer: *mut u32, answer_length: usize);
    fn hirvelan_read(text: *const u8, length: usize, nodes: *mut u32, nodes_length: usize, comments: *mut u32, comments_length: usize, answer: *mut u32, answer_length: usize);
    fn hirvelan_enum_numbers(
        text: *const u8, length: usize, nodes: *mut u32, nodes_length: usize, comments: *mut u32, comments_length: usize,
        list: *mut i32, list_length: usize, answer: *mut u32, answer_length: usize,
    );
    fn hirvelan_print(
        text: *const u8, length: usize, indent: u32, nodes: *mut u32, nodes_length: usize, comments: *mut u32, comments_length: usize,
        out: *mut u8, out_length: usize, answer: *mut u64, answer_length: usize,
    );
    fn hirvelan_place(text: *const u8, length: usize, offset: u32, place: *mut u32, place_length: usize);
    fn hirvelan_run(
        space: *mut u8, space_length: usize, file: usize, indent: u32, requests: *const u32, requests_length: usize,
        nodes: *mut u32, nodes_length: usize, comments: *mut u32, comments_length: usize, out: *mut u8, out_length: usize,
    ) -> usize;
    fn hirvelan_widen(table: *const u32, length: usize, out: *mut u32, out_length: usize, answer: *mut u32, answer_length: usize);
    fn hirvelan_narrow(table: *const u32, length: usize, out: *mut u32, out_length: usize, answer: *mut u32, answer_length: usize);
}

// In each call below: a slice's pointer is not null, aligned and valid for its length, an empty one's too;
// what is lent by `&mut` overlaps nothing else that is lent. The contracts ask no more.

pub fn check(text: &[u8]) -> [u32; 3] {
    let mut answer = [0; 3];
    unsafe { hirvelan_check(text.as_ptr(), text.len(), answer.as_mut_ptr(), answer.len()) };
    answer
}

pub fn read(text: &[u8], nodes: &mut [u32], comments: &mut [u32]) -> [u32; 3] {
    let mut answer = [0; 3];
    unsafe {
        hirvelan_read(
            text.as_ptr(), text.len(), nodes.as_mut_ptr(), nodes.len(), comments.as_mut_ptr(), comments.len(),
            answer.as_mut_ptr(), answer.len(),
        )
    };
    answer
}

pub fn enum_numbers(text: &[u8], nodes: &mut [u32], comments: &mut [u32], list: &mut [i32]) -> [u32; 3] {
    let mut answer = [0; 3];
    unsafe {
        hirvelan_enum_numbers(
            text.as_ptr(), text.len(), nodes.as_mut_ptr(), nodes.len(), comments.as_mut_ptr(), comments.len(),
            list.as_mut_ptr(), list.len(), answer.as_mut_ptr(), answer.len(),
        )
    };
    answer
}

pub fn print(text: &[u8], indent: u32, nodes: &mut [u32], comments: &mut [u32], out: &mut [u8]) -> [u64; 4] {
    let mut answer = [0; 4];
    unsafe {
        hirvelan_print(
            text.as_ptr(), text.len(), indent, nodes.as_mut_ptr(), nodes.len(), comments.as_mut_ptr(), comments.len(),
            out.as_mut_ptr(), out.len(), answer.as_mut_ptr(), answer.len(),
        )
    };
    answer
}

pub fn place(text: &[u8], offset: u32) -> [u32; 3] {
    let mut place = [0; 3];
    unsafe { hirvelan_place(text.as_ptr(), text.len(), offset, place.as_mut_ptr(), place.len()) };
    place
}

pub fn run(space: &mut [u8], file: usize, indent: u32, requests: &[u32], nodes: &mut [u32], comments: &mut [u32], out: &mut [u8]) -> usize {
    unsafe {
        hirvelan_run(
            space.as_mut_ptr(), space.len(), file, indent, requests.as_ptr(), requests.len(),
            nodes.as_mut_ptr(), nodes.len(), comments.as_mut_ptr(), comments.len(), out.as_mut_ptr(), out.len(),
        )
    }
}

pub fn widen(table: &[u32], out: &mut [u32]) -> [u32; 3] {
    let mut answer = [0; 3];
    unsafe { hirvelan_widen(table.as_ptr(), table.len(), out.as_mut_ptr(), out.len(), answer.as_mut_ptr(), answer.len()) };
    answer
}

pub fn narrow(table: &[u32], out: &mut [u32]) -> [u32; 3] {
    let mut answer = [0; 3];
    unsafe { hirvelan_narrow(table.as_ptr(), table.len(), out.as_mut_ptr(), out.len(), answer.as_mut_ptr(), answer.len()) };
    answer
}

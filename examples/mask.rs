//! Puts a mask into block 1 of a volume, in memory, as mask.c does: opens the file that is named, erases the block, writes the mask and reads it back.

// The calls of include/fv.h, which says what each answers and what its caller owes.
#[allow(dead_code)]
#[link(name = "fv", kind = "static")]
extern "C" {
    fn fv_open(state: *mut u8, state_len: usize, volume: *const u8, volume_len: usize, base: u64) -> u32;
    fn fv_read(
        state: *const u8, state_len: usize, volume: *const u8, volume_len: usize, block: u64, offset: u64,
        buffer: *mut u8, buffer_len: usize, answer: *mut u8, answer_len: usize,
    ) -> u32;
    fn fv_write(
        state: *const u8, state_len: usize, volume: *mut u8, volume_len: usize, block: u64, offset: u64,
        data: *const u8, data_len: usize, answer: *mut u8, answer_len: usize,
    ) -> u32;
    fn fv_erase(state: *const u8, state_len: usize, volume: *mut u8, volume_len: usize, list: *const u8, list_len: usize) -> u32;
    fn fv_search(
        mode: u32, stream: *const u8, stream_len: usize, section_type: u8, instance: u64, answer: *mut u8, answer_len: usize,
    ) -> u32;
    fn fv_search_first(mode: u32, stream: *const u8, stream_len: usize, section_type: u8, answer: *mut u8, answer_len: usize) -> u32;
    fn fv_append(
        mode: u32, buffer: *mut u8, buffer_len: usize, used: u64, section_type: u8,
        body: *const u8, body_len: usize, answer: *mut u8, answer_len: usize,
    ) -> u32;
    fn fv_ext_entry(volume: *const u8, volume_len: usize, number: u64, answer: *mut u8, answer_len: usize) -> u32;
}

/// Goes no further than the first call that is not a success: nothing is written that was not erased.
fn done(call: &str, number: u32) {
    if number != 0 {
        eprintln!("{call}: {number}");
        std::process::exit(1);
    }
}

fn main() {
    let name = std::env::args().nth(1).expect("usage: mask VOLUME");
    let mut volume = std::fs::read(name).expect("the volume cannot be read");
    let (mut state, mut answer, mut back) = ([0u8; 304], [0u8; 16], [0u8; 4]);
    let mask = [0x0Fu8, 0xF0, 0x55, 0xAA];
    // Block 1, one block; the end.
    let blocks: Vec<u8> = [1u64, 1, u64::MAX].iter().flat_map(|word| word.to_le_bytes()).collect();
    let (v, n) = (volume.as_mut_ptr(), volume.len());
    // Sound: every range is live, and none that is stored into overlaps another.
    unsafe {
        done("open", fv_open(state.as_mut_ptr(), state.len(), v, n, 0));
        done("erase", fv_erase(state.as_ptr(), state.len(), v, n, blocks.as_ptr(), blocks.len()));
        done("write", fv_write(state.as_ptr(), state.len(), v, n, 1, 0, mask.as_ptr(), mask.len(), answer.as_mut_ptr(), answer.len()));
        done("read", fv_read(state.as_ptr(), state.len(), v, n, 1, 0, back.as_mut_ptr(), back.len(), answer.as_mut_ptr(), answer.len()));
    }
    let bytes: Vec<String> = back.iter().map(|byte| format!("{byte:02X}")).collect();
    println!("{}", bytes.join(" "));
}

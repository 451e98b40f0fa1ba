//! The C functions of the archive libclient.a, as include/conform.h declares them.

extern "C" {
    pub fn conform_load(table: *const u8, table_len: usize) -> u64;
    pub fn conform_start(
        table: *const u8,
        table_len: usize,
        objects: *const u8,
        objects_len: usize,
        trail: *mut u8,
        trail_len: usize,
    ) -> u64;
    pub fn conform_event(trail: *mut u8, trail_len: usize, activity: u32, objects: *const u8, objects_len: usize) -> u64;
    pub fn conform_close(trail: *mut u8, trail_len: usize) -> u64;
    pub fn conform_restore(record: *const u8, record_len: usize, trail: *mut u8, trail_len: usize) -> u64;
    pub fn conform_save(trail: *const u8, trail_len: usize, record: *mut u8, record_len: usize) -> u64;
    pub fn conform_trail_line(trail: *const u8, trail_len: usize, line: *mut u8, line_len: usize) -> u64;
    pub fn conform_place_line(trail: *const u8, trail_len: usize, place: u32, line: *mut u8, line_len: usize) -> u64;
    pub fn conform_act_line(trail: *const u8, trail_len: usize, activity: u32, line: *mut u8, line_len: usize) -> u64;
    pub fn conform_jump_line(trail: *const u8, trail_len: usize, from: u32, to: u32, line: *mut u8, line_len: usize) -> u64;
    pub fn conform_trail_counts(trail: *const u8, trail_len: usize, counts: *mut u8, counts_len: usize) -> u64;
    pub fn conform_place_counts(trail: *const u8, trail_len: usize, place: u32, counts: *mut u8, counts_len: usize) -> u64;
    pub fn conform_act_counts(trail: *const u8, trail_len: usize, activity: u32, counts: *mut u8, counts_len: usize) -> u64;
    pub fn conform_jump_count(trail: *const u8, trail_len: usize, from: u32, to: u32, counts: *mut u8, counts_len: usize) -> u64;
}

//! The C functions of the library, as `include/calugnid.h` has them.

unsafe extern "C" {
    pub fn calugnid_library_version() -> u32;
    pub fn calugnid_state_bytes() -> usize;

    pub fn calugnid_start(state: *mut u8, options: u8, version: u8);
    pub fn calugnid_start_with_table(
        state: *mut u8,
        options: u8,
        version: u8,
        table: *const u8,
        table_len: usize,
    ) -> u8;
    pub fn calugnid_event(state: *mut u8, kind: u8, value: u16, answer: *mut u8);
    pub fn calugnid_run_state(
        state: *mut u8,
        list: *const u8,
        list_len: usize,
        answers: *mut u8,
        answers_len: usize,
    ) -> u8;
    pub fn calugnid_run_fitting(
        state: *mut u8,
        list: *const u8,
        list_len: usize,
        answers: *mut u8,
        answers_len: usize,
        count: *mut usize,
    ) -> u8;
    pub fn calugnid_save(state: *const u8, saved: *mut u8, saved_len: usize) -> u8;
    pub fn calugnid_load(state: *mut u8, version: u8, image: *const u8, image_len: usize) -> u8;
    pub fn calugnid_load_with_table(
        state: *mut u8,
        version: u8,
        table: *const u8,
        table_len: usize,
        image: *const u8,
        image_len: usize,
    ) -> u8;
    pub fn calugnid_lines(state: *const u8, answer: *mut u8);
    pub fn calugnid_refusal(state: *const u8, kind: u8, value: u16) -> u8;
    pub fn calugnid_sent_byte(state: *const u8) -> u8;
    pub fn calugnid_status(state: *const u8) -> u8;
    pub fn calugnid_ready(state: *const u8, kind: u8) -> bool;
    pub fn calugnid_locked(state: *const u8) -> bool;
    pub fn calugnid_options(state: *const u8) -> u8;
    pub fn calugnid_version_byte(state: *const u8) -> u8;

    pub fn calugnid_run(
        options: u8,
        version: u8,
        list: *const u8,
        list_len: usize,
        answers: *mut u8,
        answers_len: usize,
    ) -> u8;
    pub fn calugnid_run_with_table(
        options: u8,
        version: u8,
        table: *const u8,
        table_len: usize,
        list: *const u8,
        list_len: usize,
        answers: *mut u8,
        answers_len: usize,
    ) -> u8;
    pub fn calugnid_table_refusal(table: *const u8, table_len: usize) -> u8;
    pub fn calugnid_run_image(
        version: u8,
        image: *const u8,
        image_len: usize,
        list: *const u8,
        list_len: usize,
        answers: *mut u8,
        answers_len: usize,
        saved: *mut u8,
        saved_len: usize,
    ) -> u8;
    pub fn calugnid_run_image_with_table(
        version: u8,
        table: *const u8,
        table_len: usize,
        image: *const u8,
        image_len: usize,
        list: *const u8,
        list_len: usize,
        answers: *mut u8,
        answers_len: usize,
        saved: *mut u8,
        saved_len: usize,
    ) -> u8;
    pub fn calugnid_move_to_edition_2(
        image: *const u8,
        image_len: usize,
        moved: *mut u8,
        moved_len: usize,
    ) -> u8;
    pub fn calugnid_move_to_edition_1(
        image: *const u8,
        image_len: usize,
        moved: *mut u8,
        moved_len: usize,
    ) -> u8;
    pub fn calugnid_find(image: *const u8, image_len: usize) -> usize;
    pub fn calugnid_judge(frame: u16) -> u16;
    pub fn calugnid_frame(byte: u8) -> u16;
    pub fn calugnid_translate(byte: u8, break_flag: bool) -> u16;

    pub fn calugnid_trackball_start(trackball: *mut u8);
    pub fn calugnid_trackball_move(trackball: *mut u8, buttons: u8, x: i16, y: i16);
    pub fn calugnid_trackball_send(trackball: *mut u8, byte: u8, frames: *mut u16) -> usize;
    pub fn calugnid_trackball_report(trackball: *mut u8, frames: *mut u16) -> usize;
}

//! The nine calls of a sheet library over its C interface, include/sheet.h.

/// Declares them in a module, for a library whose calls begin with a prefix.
macro_rules! library {
    ($module:ident, $prefix:literal) => {
        #[allow(dead_code)]
        mod $module {
            unsafe extern "C" {
                #[link_name = concat!($prefix, "_judge")]
                pub fn judge(sheet: *const u8, sheet_len: usize, relation: u16) -> u32;
                #[link_name = concat!($prefix, "_joint_reading")]
                pub fn joint_reading(sheet: *const u8, sheet_len: usize, relation: u16, offset: *mut f64, angle: *mut f64) -> u32;
                #[link_name = concat!($prefix, "_snap")]
                pub fn snap(sheet: *const u8, sheet_len: usize, relation: u16, motion: *mut f64, motion_len: usize) -> u32;
                #[link_name = concat!($prefix, "_solve")]
                pub fn solve(
                    sheet: *const u8,
                    sheet_len: usize,
                    drag: u16,
                    scratch: *mut f64,
                    scratch_len: usize,
                    poses: *mut f64,
                    poses_len: usize,
                    frames: *mut f64,
                    frames_len: usize,
                    errors: *mut f64,
                    errors_len: usize,
                    converged: *mut u8,
                ) -> u32;
                #[link_name = concat!($prefix, "_solve_with")]
                pub fn solve_with(
                    sheet: *const u8,
                    sheet_len: usize,
                    drag: u16,
                    tolerance: f64,
                    rounds: u32,
                    row_limit: u32,
                    drag_weight: f64,
                    scratch: *mut f64,
                    scratch_len: usize,
                    poses: *mut f64,
                    poses_len: usize,
                    frames: *mut f64,
                    frames_len: usize,
                    errors: *mut f64,
                    errors_len: usize,
                    converged: *mut u8,
                ) -> u32;
                #[link_name = concat!($prefix, "_solve_begin")]
                pub fn solve_begin(
                    sheet: *const u8,
                    sheet_len: usize,
                    drag: u16,
                    tolerance: f64,
                    rounds: u32,
                    row_limit: u32,
                    drag_weight: f64,
                    portion: u32,
                    unknowns: *mut u32,
                    rows: *mut u32,
                    done: *mut u32,
                    run: *mut u8,
                    state: *mut f64,
                    state_len: usize,
                    scratch: *mut f64,
                    scratch_len: usize,
                    poses: *mut f64,
                    poses_len: usize,
                    frames: *mut f64,
                    frames_len: usize,
                    errors: *mut f64,
                    errors_len: usize,
                    converged: *mut u8,
                ) -> u32;
                #[link_name = concat!($prefix, "_solve_on")]
                pub fn solve_on(
                    sheet: *const u8,
                    sheet_len: usize,
                    drag: u16,
                    tolerance: f64,
                    rounds: u32,
                    row_limit: u32,
                    drag_weight: f64,
                    portion: u32,
                    unknowns: u32,
                    rows: u32,
                    done: *mut u32,
                    run: *mut u8,
                    state: *mut f64,
                    state_len: usize,
                    scratch: *mut f64,
                    scratch_len: usize,
                    poses: *mut f64,
                    poses_len: usize,
                    frames: *mut f64,
                    frames_len: usize,
                    errors: *mut f64,
                    errors_len: usize,
                    converged: *mut u8,
                ) -> u32;
                #[link_name = concat!($prefix, "_dof")]
                pub fn dof(
                    sheet: *const u8,
                    sheet_len: usize,
                    scratch: *mut f64,
                    scratch_len: usize,
                    freedoms: *mut f64,
                    freedoms_len: usize,
                    free: *mut u32,
                ) -> u32;
                #[link_name = concat!($prefix, "_write")]
                pub fn write(
                    m: u16,
                    k: u16,
                    bytes: *const u8,
                    bytes_len: usize,
                    words: *const u16,
                    words_len: usize,
                    numbers: *const f64,
                    numbers_len: usize,
                    sheet: *mut u8,
                    sheet_len: usize,
                ) -> u32;
            }
        }
    };
}

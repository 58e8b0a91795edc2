//! The functions of the static library. A slice crosses as its address and its length.

extern "C" {
    pub fn daniskol_numbers_size() -> usize;
    pub fn daniskol_diffs_size() -> usize;
    pub fn daniskol_moments_size() -> usize;
    pub fn daniskol_column_size() -> usize;
    pub fn daniskol_moments_needed(width: u64, old: usize, newkeys: *const u64, newkeys_len: usize, pendingkeys: *const u64, pendingkeys_len: usize) -> usize;
    pub fn daniskol_column_needed(old: usize, new: usize) -> usize;
    pub fn daniskol_text_size() -> usize;

    // Returns how many bytes of the reply were written: none where `text` is shorter than the longest reply.
    pub fn daniskol_answer(request: *const u8, request_len: usize, text: *mut u8, text_len: usize) -> usize;

    // Returns the status. `counts` receives status, crossings, and how many tiles, corrections, pending entries and frontier times there are.
    pub fn daniskol_retire(
        mode: u64,
        width: u64,
        lower: *const u64, lower_len: usize,
        upper: *const u64, upper_len: usize,
        held: *const u64, held_len: usize,
        old_keys: *const u64, old_keys_len: usize,
        old_values: *const u64, old_values_len: usize,
        old_times: *const u64, old_times_len: usize,
        old_diffs: *const i64, old_diffs_len: usize,
        new_keys: *const u64, new_keys_len: usize,
        new_values: *const u64, new_values_len: usize,
        new_times: *const u64, new_times_len: usize,
        new_diffs: *const i64, new_diffs_len: usize,
        out_keys: *const u64, out_keys_len: usize,
        out_values: *const u64, out_values_len: usize,
        out_times: *const u64, out_times_len: usize,
        out_diffs: *const i64, out_diffs_len: usize,
        pending_keys: *const u64, pending_keys_len: usize,
        pending_times: *const u64, pending_times_len: usize,
        counts: *mut u64, counts_len: usize,
        numbers: *mut u64, numbers_len: usize,
        diffs: *mut i64, diffs_len: usize,
        moments: *mut u64, moments_len: usize,
        tk: *mut u64, tk_len: usize,
        tv: *mut u64, tv_len: usize,
        tt: *mut u64, tt_len: usize,
        uv: *mut u64, uv_len: usize,
        ut: *mut u64, ut_len: usize,
        td: *mut i64, td_len: usize,
        ud: *mut i64, ud_len: usize,
    ) -> u64;
}

//! The library's symbols, and all that is unsafe: slices become pointer and length.

unsafe extern "C" {
    fn plank_lex(text: *const u8, text_len: usize, tokens: *mut u32, tokens_len: usize) -> u64;

    fn plank_lex_branching(
        text: *const u8,
        text_len: usize,
        tokens: *mut u32,
        tokens_len: usize,
    ) -> u64;

    fn plank_read(
        text: *const u8,
        text_len: usize,
        tokens: *mut u32,
        tokens_len: usize,
        nodes: *mut u32,
        nodes_len: usize,
        values: *mut u32,
        values_len: usize,
        reports: *mut u32,
        reports_len: usize,
        counts: *mut u64,
        counts_len: usize,
    ) -> u64;

    fn plank_view(which: u32, nodes: *const u32, nodes_len: usize, n: u32, i: u32) -> u64;

    fn plank_view_span(
        which: u32,
        nodes: *const u32,
        nodes_len: usize,
        n: u32,
        span: *mut u32,
        span_len: usize,
    ) -> u64;

    fn plank_view_count(which: u32, nodes: *const u32, nodes_len: usize, n: u32) -> u64;
}

pub fn lex(text: &[u8], tokens: &mut [u32]) -> u64 {
    // Safety: both pointers and lengths are those of live slices, the second one unshared.
    unsafe { plank_lex(text.as_ptr(), text.len(), tokens.as_mut_ptr(), tokens.len()) }
}

pub fn lex_branching(text: &[u8], tokens: &mut [u32]) -> u64 {
    // Safety: as of `lex`.
    unsafe { plank_lex_branching(text.as_ptr(), text.len(), tokens.as_mut_ptr(), tokens.len()) }
}

pub fn read(
    text: &[u8],
    tokens: &mut [u32],
    nodes: &mut [u32],
    values: &mut [u32],
    reports: &mut [u32],
    counts: &mut [u64; 4],
) -> u64 {
    // Safety: all pointers and lengths are those of live slices, all but the first unshared.
    unsafe {
        plank_read(
            text.as_ptr(),
            text.len(),
            tokens.as_mut_ptr(),
            tokens.len(),
            nodes.as_mut_ptr(),
            nodes.len(),
            values.as_mut_ptr(),
            values.len(),
            reports.as_mut_ptr(),
            reports.len(),
            counts.as_mut_ptr(),
            counts.len(),
        )
    }
}

pub fn view(which: u32, nodes: &[u32], n: u32, i: u32) -> u64 {
    // Safety: pointer and length are those of a live slice.
    unsafe { plank_view(which, nodes.as_ptr(), nodes.len(), n, i) }
}

pub fn view_span(which: u32, nodes: &[u32], n: u32, span: &mut [u32; 2]) -> u64 {
    // Safety: both pointers and lengths are those of live slices, the second one unshared.
    unsafe { plank_view_span(which, nodes.as_ptr(), nodes.len(), n, span.as_mut_ptr(), span.len()) }
}

pub fn view_count(which: u32, nodes: &[u32], n: u32) -> u64 {
    // Safety: pointer and length are those of a live slice.
    unsafe { plank_view_count(which, nodes.as_ptr(), nodes.len(), n) }
}

//! The export that makes the calls of a text, on lent slices of any length.

extern "C" {
    fn sheetdesk_script(
        desk: *mut u32, desk_len: usize, text: *const u8, text_len: usize, out: *mut u8,
        out_len: usize, scratch: *mut u32, scratch_len: usize, counts: *mut usize,
        counts_len: usize,
    ) -> u32;
}

/// Gives how many words of the counts were laid.
pub fn script(
    desk: &mut [u32],
    text: &[u8],
    out: &mut [u8],
    scratch: &mut [u32],
    counts: &mut [usize],
) -> u32 {
    let (d, dn, t, tn) = (desk.as_mut_ptr(), desk.len(), text.as_ptr(), text.len());
    let (o, on, s, sn) = (out.as_mut_ptr(), out.len(), scratch.as_mut_ptr(), scratch.len());
    // Each pointer goes with the length of what it points to.
    unsafe { sheetdesk_script(d, dn, t, tn, o, on, s, sn, counts.as_mut_ptr(), counts.len()) }
}

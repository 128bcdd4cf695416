//! The proved library through its C interface.

extern "C" {
    fn acs_check(snapshot: *const u8, snapshot_len: usize, now: u64) -> u64;

    fn acs_route(
        snapshot: *const u8,
        snapshot_len: usize,
        now: u64,
        origin: u16,
        header: *const u8,
        header_len: usize,
        hops: *mut u8,
        hops_len: usize,
    ) -> u64;

    fn acs_fill(image: *const u8, image_len: usize, record: *mut u8, record_len: usize) -> u64;
}

pub fn check(snapshot: &[u8], now: u64) -> u64 {
    // The pointer and length are a slice's, which the library only reads.
    unsafe { acs_check(snapshot.as_ptr(), snapshot.len(), now) }
}

pub fn route(snapshot: &[u8], now: u64, origin: u16, header: &[u8], hops: &mut [u8]) -> u64 {
    // The pointers and lengths are those of slices; only `hops` is written, and
    // it overlaps neither of the others.
    unsafe {
        acs_route(
            snapshot.as_ptr(),
            snapshot.len(),
            now,
            origin,
            header.as_ptr(),
            header.len(),
            hops.as_mut_ptr(),
            hops.len(),
        )
    }
}

pub fn fill(image: &[u8], record: &mut [u8]) -> u64 {
    // The pointers and lengths are those of slices; only `record` is written,
    // and it doesn't overlap the image.
    unsafe {
        acs_fill(
            image.as_ptr(),
            image.len(),
            record.as_mut_ptr(),
            record.len(),
        )
    }
}

//! The proved functions, linked as a static library: any call by the operation's number, with x to
//! read and y, z and c to write (`crates/replay/src/main.rt` has the table), and the count of ones.
//! A slice goes as a pointer and a length.

/// An answer whole: the refusal, or 0; how many values there are; 0 for those that are not there.
#[repr(C)]
#[derive(Clone, Copy, Debug, PartialEq)]
pub struct Reply {
    pub refusal: u8,
    pub count: u8,
    pub first: u32,
    pub second: u32,
    pub third: u32,
}

mod linked {
    #[rustfmt::skip]
    #[link(name = "calls", kind = "static")]
    extern "C" {
        pub fn call(
            op: u8, w: u32, h: u32, a: u32, b: u32,
            x: *const u8, x_len: usize, y: *mut u8, y_len: usize, z: *mut u8, z_len: usize, c: *mut u16, c_len: usize,
        ) -> super::Reply;
        pub fn count(s: *const u8, s_len: usize) -> u32;
    }
}

/// Makes a call.
#[rustfmt::skip]
pub fn call(op: u8, [w, h, a, b]: [u32; 4], x: &[u8], y: &mut [u8], z: &mut [u8], c: &mut [u16]) -> Reply {
    // The pointers and lengths are those of slices that outlive the call.
    unsafe {
        linked::call(
            op, w, h, a, b,
            x.as_ptr(), x.len(), y.as_mut_ptr(), y.len(), z.as_mut_ptr(), z.len(), c.as_mut_ptr(), c.len(),
        )
    }
}

/// The number of ones in some bytes; 0 from 1,048,576 of them on.
pub fn count(bytes: &[u8]) -> u32 {
    // The pointer and the length are those of a slice that outlives the call.
    unsafe { linked::count(bytes.as_ptr(), bytes.len()) }
}

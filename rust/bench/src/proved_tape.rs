//! The proved tape operations. Nothing checks these declarations against crates/capi; the comparison in bin/tape.rs does.

#[repr(C)]
#[derive(Clone, Copy, Debug, PartialEq)]
pub struct Wrote {
    pub error: u32,
    pub count: u32,
    pub position: usize,
}

#[repr(C)]
#[derive(Clone, Copy, Debug, PartialEq)]
pub struct Part {
    pub error: u32,
    pub position: usize,
    pub start: usize,
    pub len: usize,
}

#[repr(C)]
#[derive(Clone, Copy, Debug, PartialEq)]
pub struct Spaced {
    pub error: u32,
    pub position: usize,
    pub residue: u32,
}

unsafe extern "C" {
    fn cartridge_write(image: *mut u8, n: usize, position: usize, bytes: *const u8, m: usize) -> Wrote;
    fn cartridge_mtio(image: *mut u8, n: usize, op: u32, position: usize, times: u32) -> Spaced;
    fn cartridge_read(image: *const u8, n: usize, position: usize, times: u32, out: *mut u8, m: usize) -> Part;
}

// Safety, of all three: the slices are whole and apart, and the functions ask for nothing else.

pub use proved::sound;

pub fn write(image: &mut [u8], position: usize, bytes: &[u8]) -> Wrote {
    unsafe { cartridge_write(image.as_mut_ptr(), image.len(), position, bytes.as_ptr(), bytes.len()) }
}

pub fn mtio(image: &mut [u8], op: u32, position: usize, times: u32) -> Spaced {
    unsafe { cartridge_mtio(image.as_mut_ptr(), image.len(), op, position, times) }
}

pub fn read(image: &[u8], position: usize, times: u32, out: &mut [u8]) -> Part {
    unsafe { cartridge_read(image.as_ptr(), image.len(), position, times, out.as_mut_ptr(), out.len()) }
}

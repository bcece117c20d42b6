//! What the standard library lacks of the system's calls: for Linux, on machines with words of 64 bits.
use std::ffi::{CStr, CString, OsStr, OsString, c_char, c_int, c_uint, c_ulong, c_void};
use std::fs::File;
use std::io;
use std::mem::ManuallyDrop;
use std::os::fd::{AsRawFd, FromRawFd};
use std::os::unix::ffi::{OsStrExt, OsStringExt};
use std::time::Duration;

#[cfg(not(all(target_os = "linux", any(target_arch = "x86_64", target_arch = "aarch64"))))]
compile_error!("the numbers below are those of Linux on x86_64 and aarch64");

pub const READ: c_int = 0;
pub const WRITE: c_int = 1;
pub const READ_WRITE: c_int = 2;
pub const CREATE: c_int = 0o100;
pub const EXCLUSIVE: c_int = 0o200;
pub const NO_TERMINAL: c_int = 0o400;
/// A FIFO is opened without a wait for its other end.
pub const NO_WAIT: c_int = 0o4000;
const CLOSE_ON_EXEC: c_int = 0o2_000_000;
/// A name is looked at, and nothing is opened.
pub const LOOK: c_int = 0o10_000_000;
#[cfg(target_arch = "x86_64")]
pub const FOLDER: c_int = 0o200_000;
#[cfg(target_arch = "x86_64")]
const NO_FOLLOW: c_int = 0o400_000;
#[cfg(target_arch = "aarch64")]
pub const FOLDER: c_int = 0o40_000;
#[cfg(target_arch = "aarch64")]
const NO_FOLLOW: c_int = 0o100_000;

const NOT_FOLLOWED: c_int = 0x100;
const REMOVE_FOLDER: c_int = 0x200;

#[repr(C)]
struct Entry {
    inode: u64,
    offset: i64,
    length: u16,
    kind: u8,
    name: [c_char; 256],
}

#[repr(C)]
pub struct Time {
    pub seconds: i64,
    pub nanos: i64,
}

/// A file that is waited for, and for what.
#[repr(C)]
pub struct Poll {
    fd: c_int,
    events: i16,
    seen: i16,
}

/// Bytes, or a connection, can be taken; bytes can be written; the other side sends no more.
pub const IN: i16 = 1;
pub const OUT: i16 = 4;
pub const ENDED: i16 = 0x2000;
/// Seen without being asked for: an error, or both sides send no more.
const BROKEN: i16 = 8 | 0x10;

impl Poll {
    pub fn new(file: &impl AsRawFd, events: i16) -> Poll {
        Poll { fd: file.as_raw_fd(), events, seen: 0 }
    }
}

unsafe extern "C" {
    fn openat(folder: c_int, name: *const c_char, flags: c_int, ...) -> c_int;
    fn mkdirat(folder: c_int, name: *const c_char, mode: c_uint) -> c_int;
    fn unlinkat(folder: c_int, name: *const c_char, flags: c_int) -> c_int;
    fn renameat(folder: c_int, name: *const c_char, to: c_int, new: *const c_char) -> c_int;
    fn linkat(folder: c_int, name: *const c_char, to: c_int, new: *const c_char, flags: c_int) -> c_int;
    fn symlinkat(target: *const c_char, folder: c_int, name: *const c_char) -> c_int;
    fn readlinkat(folder: c_int, name: *const c_char, buffer: *mut c_char, n: usize) -> isize;
    fn fchownat(folder: c_int, name: *const c_char, user: c_uint, group: c_uint, flags: c_int) -> c_int;
    fn utimensat(folder: c_int, name: *const c_char, times: *const Time, flags: c_int) -> c_int;
    fn fdopendir(fd: c_int) -> *mut c_void;
    fn readdir(list: *mut c_void) -> *mut Entry;
    fn closedir(list: *mut c_void) -> c_int;
    fn close(fd: c_int) -> c_int;
    fn posix_fallocate(fd: c_int, from: i64, n: i64) -> c_int;
    fn flistxattr(fd: c_int, list: *mut c_char, n: usize) -> isize;
    fn poll(of: *mut Poll, n: u64, milliseconds: c_int) -> c_int;
    fn setsockopt(fd: c_int, level: c_int, name: c_int, value: *const c_void, n: c_uint) -> c_int;
    fn signal(number: c_int, handler: usize) -> usize;
    fn pipe2(ends: *mut c_int, flags: c_int) -> c_int;
    fn write(fd: c_int, bytes: *const c_void, n: usize) -> isize;
    fn ioctl(fd: c_int, what: c_ulong, ...) -> c_int;
    fn getrandom(bytes: *mut c_void, n: usize, flags: c_uint) -> isize;
    fn geteuid() -> c_uint;
    fn __errno_location() -> *mut c_int;
}

fn word(text: &OsStr) -> io::Result<CString> {
    CString::new(text.as_bytes()).map_err(|_| io::Error::new(io::ErrorKind::InvalidInput, "a name with a NUL"))
}

fn done(code: c_int) -> io::Result<c_int> {
    if code < 0 { Err(io::Error::last_os_error()) } else { Ok(code) }
}

// Safety, of all below: texts end with a NUL, buffers are as long as is said, and file descriptors are open.

/// Opens a name in a folder; a link is not followed.
pub fn open(folder: &File, name: &OsStr, flags: c_int, mode: u32) -> io::Result<File> {
    let name = word(name)?;
    let flags = flags | NO_FOLLOW | CLOSE_ON_EXEC | NO_TERMINAL;
    let fd = done(unsafe { openat(folder.as_raw_fd(), name.as_ptr(), flags, mode as c_uint) })?;
    Ok(unsafe { File::from_raw_fd(fd) })
}

pub fn make_folder(folder: &File, name: &OsStr, mode: u32) -> io::Result<()> {
    let name = word(name)?;
    done(unsafe { mkdirat(folder.as_raw_fd(), name.as_ptr(), mode) }).map(drop)
}

pub fn remove(folder: &File, name: &OsStr, is_folder: bool) -> io::Result<()> {
    let name = word(name)?;
    let flags = if is_folder { REMOVE_FOLDER } else { 0 };
    done(unsafe { unlinkat(folder.as_raw_fd(), name.as_ptr(), flags) }).map(drop)
}

/// In one folder.
pub fn rename(folder: &File, name: &OsStr, new: &OsStr) -> io::Result<()> {
    let (name, new, fd) = (word(name)?, word(new)?, folder.as_raw_fd());
    done(unsafe { renameat(fd, name.as_ptr(), fd, new.as_ptr()) }).map(drop)
}

pub fn hard_link(folder: &File, name: &OsStr, to: &File, new: &OsStr) -> io::Result<()> {
    let (name, new) = (word(name)?, word(new)?);
    done(unsafe { linkat(folder.as_raw_fd(), name.as_ptr(), to.as_raw_fd(), new.as_ptr(), 0) }).map(drop)
}

pub fn link(target: &OsStr, folder: &File, name: &OsStr) -> io::Result<()> {
    let (target, name) = (word(target)?, word(name)?);
    done(unsafe { symlinkat(target.as_ptr(), folder.as_raw_fd(), name.as_ptr()) }).map(drop)
}

/// What a link points to.
pub fn link_target(folder: &File, name: &OsStr) -> io::Result<OsString> {
    let name = word(name)?;
    let mut buffer = vec![0u8; 4_096];
    let n = unsafe { readlinkat(folder.as_raw_fd(), name.as_ptr(), buffer.as_mut_ptr().cast(), buffer.len()) };
    if n < 0 {
        return Err(io::Error::last_os_error());
    }
    buffer.truncate(n as usize);
    Ok(OsString::from_vec(buffer))
}

/// Of a name itself, also of a link.
pub fn set_owner(folder: &File, name: &OsStr, user: u32, group: u32) -> io::Result<()> {
    let name = word(name)?;
    done(unsafe { fchownat(folder.as_raw_fd(), name.as_ptr(), user, group, NOT_FOLLOWED) }).map(drop)
}

/// The times of access and change, of a name itself.
pub fn set_times(folder: &File, name: &OsStr, times: [Time; 2]) -> io::Result<()> {
    let name = word(name)?;
    done(unsafe { utimensat(folder.as_raw_fd(), name.as_ptr(), times.as_ptr(), NOT_FOLLOWED) }).map(drop)
}

/// What a folder holds.
pub fn names(folder: &File) -> io::Result<Vec<OsString>> {
    // A handle of its own: the place in the list is the handle's.
    let own = open(folder, OsStr::new("."), READ | FOLDER, 0)?;
    let fd = std::os::fd::IntoRawFd::into_raw_fd(own);
    let list = unsafe { fdopendir(fd) };
    if list.is_null() {
        let why = io::Error::last_os_error();
        unsafe { close(fd) };
        return Err(why);
    }
    let mut all = Vec::new();
    let end = loop {
        unsafe { *__errno_location() = 0 };
        let entry = unsafe { readdir(list) };
        if entry.is_null() {
            let why = io::Error::last_os_error();
            break if why.raw_os_error() == Some(0) { Ok(()) } else { Err(why) };
        }
        // The entry is as long as its name: no reference is made to the whole of it.
        let name = unsafe { CStr::from_ptr((&raw const (*entry).name).cast()) };
        if !matches!(name.to_bytes(), b"." | b"..") {
            all.push(OsStr::from_bytes(name.to_bytes()).to_os_string());
        }
    };
    unsafe { closedir(list) };
    end.map(|()| all)
}

/// Gives a file its blocks on the disk, and the length that they make.
pub fn allocate(file: &File, length: u64) -> io::Result<()> {
    match unsafe { posix_fallocate(file.as_raw_fd(), 0, length as i64) } {
        0 => Ok(()),
        code => Err(io::Error::from_raw_os_error(code)),
    }
}

/// The names of a file's extended attributes, each with a NUL behind it; none where they cannot be told.
pub fn attributes(file: &File) -> Vec<u8> {
    let mut list = vec![0u8; 65_536];
    let n = unsafe { flistxattr(file.as_raw_fd(), list.as_mut_ptr().cast(), list.len()) };
    list.truncate(n.max(0) as usize);
    list
}

/// Whether some bytes can be written without a wait longer than this.
pub fn writable(file: &impl AsRawFd, milliseconds: i32) -> bool {
    let mut one = Poll::new(file, OUT);
    // An error of the other side is told by the write itself.
    unsafe { poll(&mut one, 1, milliseconds) == 1 }
}

/// Whether bytes, or the end, came within this time. A signal may end the wait early.
pub fn readable(file: &impl AsRawFd, most: Duration) -> bool {
    let mut one = [Poll::new(file, IN)];
    wait(&mut one, most);
    one[0].seen != 0
}

/// Standard input and output themselves, with no buffer between: what is waited for is what is read and written.
pub fn standard() -> (ManuallyDrop<File>, ManuallyDrop<File>) {
    let own = |fd| ManuallyDrop::new(unsafe { File::from_raw_fd(fd) });
    (own(0), own(1))
}

/// Waits until one of them has what is waited for, or an error, or the time is over.
pub fn wait(of: &mut [Poll], most: Duration) {
    // Up, so that no wait is of nothing, over and over.
    let milliseconds = most.as_micros().div_ceil(1_000).min(c_int::MAX as u128) as c_int;
    // Ended by a signal, it is as if the time were over.
    unsafe { poll(of.as_mut_ptr(), of.len() as u64, milliseconds) };
}

/// Whether a socket's other side sends no more, or is gone, however many bytes wait to be read.
pub fn has_ended(socket: &impl AsRawFd) -> bool {
    let mut one = Poll::new(socket, ENDED);
    unsafe { poll(&mut one, 1, 0) == 1 && one.seen & (ENDED | BROKEN) != 0 }
}

/// Whether a socket has an error, or sends no more either way.
pub fn is_broken(socket: &impl AsRawFd) -> bool {
    let mut one = Poll::new(socket, 0);
    unsafe { poll(&mut one, 1, 0) == 1 && one.seen & BROKEN != 0 }
}

/// Bytes, and the end, that were written to a socket and that the other side's system has not confirmed.
pub fn unconfirmed(socket: &impl AsRawFd) -> io::Result<usize> {
    const OUT_QUEUE: c_ulong = 0x5411;
    let mut n: c_int = 0;
    done(unsafe { ioctl(socket.as_raw_fd(), OUT_QUEUE, &raw mut n) })?;
    Ok(n.max(0) as usize)
}

/// A number that a socket is set to.
fn socket_number(socket: &impl AsRawFd, level: c_int, name: c_int, value: c_int) -> io::Result<()> {
    let n = size_of::<c_int>() as c_uint;
    done(unsafe { setsockopt(socket.as_raw_fd(), level, name, (&raw const value).cast(), n) }).map(drop)
}

const SOCKET: c_int = 1;
const TCP: c_int = 6;

/// The system asks whether the other side is still there: after a minute without a word, six times, ten seconds apart.
pub fn keep_alive(socket: &impl AsRawFd) -> io::Result<()> {
    const KEEP_ALIVE: c_int = 9;
    const IDLE: c_int = 4;
    const INTERVAL: c_int = 5;
    const COUNT: c_int = 6;
    socket_number(socket, SOCKET, KEEP_ALIVE, 1)?;
    socket_number(socket, TCP, IDLE, 60)?;
    socket_number(socket, TCP, INTERVAL, 10)?;
    socket_number(socket, TCP, COUNT, 6)
}

/// Whether the other side sees, when it is closed, a connection that broke, or one that ended.
pub fn break_on_close(socket: &impl AsRawFd, breaks: bool) -> io::Result<()> {
    const LINGER: c_int = 13;
    // On, for no seconds, or off.
    let value: [c_int; 2] = [breaks.into(), 0];
    let n = size_of_val(&value) as c_uint;
    done(unsafe { setsockopt(socket.as_raw_fd(), SOCKET, LINGER, (&raw const value).cast(), n) }).map(drop)
}

/// What was received is told to the other side at once, this time.
pub fn quick_ack(socket: &impl AsRawFd) -> io::Result<()> {
    const QUICK_ACK: c_int = 12;
    socket_number(socket, TCP, QUICK_ACK, 1)
}

/// The user whose rights the program has.
pub fn user() -> u32 {
    unsafe { geteuid() }
}

/// Fills all of it from the system's source of randomness, which is waited for until it has been seeded.
pub fn random(mut bytes: &mut [u8]) -> io::Result<()> {
    while !bytes.is_empty() {
        match unsafe { getrandom(bytes.as_mut_ptr().cast(), bytes.len(), 0) } {
            n @ 1.. => bytes = &mut bytes[n as usize..],
            0 => return Err(io::ErrorKind::UnexpectedEof.into()),
            _ => {
                let why = io::Error::last_os_error();
                if why.kind() != io::ErrorKind::Interrupted {
                    return Err(why);
                }
            }
        }
    }
    Ok(())
}

static mut SIGNALLED: c_int = -1;

/// One byte, the signal's number, to the thread that waits. Only `write` is called.
extern "C" fn told(number: c_int) {
    let byte = number as u8;
    unsafe {
        let errno = *__errno_location();
        write(SIGNALLED, (&raw const byte).cast(), 1);
        *__errno_location() = errno;
    }
}

pub const INTERRUPT: u8 = 2;
pub const TERMINATE: u8 = 15;

/// A file from which the number of each signal to end can be read.
pub fn signals() -> io::Result<File> {
    let mut ends = [0; 2];
    done(unsafe { pipe2(ends.as_mut_ptr(), CLOSE_ON_EXEC) })?;
    unsafe {
        SIGNALLED = ends[1];
        for number in [INTERRUPT, TERMINATE] {
            signal(number as c_int, told as extern "C" fn(c_int) as usize);
        }
        Ok(File::from_raw_fd(ends[0]))
    }
}

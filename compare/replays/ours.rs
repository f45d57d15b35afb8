//! The replay program of this tree, in this process: `compare/build replays` links its object with `main` and its system calls under other names, and here those calls are answered.

use crate::inputs::Inputs;
use std::cell::RefCell;
use std::sync::atomic::{AtomicI32, Ordering};

extern "C" {
    fn replay_main() -> i32;
}

/// What the program is lent while it runs.
struct Lent {
    inputs: *mut Inputs,
    log: Vec<u8>,
}

thread_local! {
    static LENT: RefCell<Lent> = const { RefCell::new(Lent { inputs: std::ptr::null_mut(), log: Vec::new() }) };
}

const WORDS: [&[u8]; 4] = [b"replay", b"events", b"far", b"near"];
/// The descriptors of the three files; what stands below them is a descriptor of the program's own process.
const FIRST: i32 = 100;
const STDOUT: i32 = 1;

/// The log that the program writes.
pub fn replay(inputs: &mut Inputs) -> Vec<u8> {
    LENT.with(|lent| lent.borrow_mut().inputs = inputs);
    unsafe { replay_main() };
    LENT.with(|lent| std::mem::take(&mut lent.borrow_mut().log))
}

#[no_mangle]
extern "C" fn replay_read(fd: i32, into: *mut u8, len: usize) -> isize {
    let inputs = LENT.with(|lent| lent.borrow().inputs);
    let (inputs, into) = unsafe { (&mut *inputs, std::slice::from_raw_parts_mut(into, len)) };
    inputs.read((fd - FIRST) as usize, into) as isize
}

#[no_mangle]
extern "C" fn replay_write(fd: i32, from: *const u8, len: usize) -> isize {
    let text = unsafe { std::slice::from_raw_parts(from, len) };
    assert!(fd == STDOUT, "the replay says: {}", String::from_utf8_lossy(text));
    LENT.with(|lent| lent.borrow_mut().log.extend_from_slice(text));
    len as isize
}

/// No terminal, so that no progress is told.
#[no_mangle]
extern "C" fn replay_isatty(_fd: i32) -> i32 {
    0
}

/// (The third word, a mode, stands where a file is made.)
#[no_mangle]
extern "C" fn replay_open(path: *const i8, _flags: i32) -> i32 {
    let path = unsafe { std::ffi::CStr::from_ptr(path.cast()) };
    let place = WORDS[1..].iter().position(|word| *word == path.to_bytes());
    FIRST + place.expect("one of the three files") as i32
}

#[no_mangle]
extern "C" fn replay_close(_fd: i32) -> i32 {
    0
}

/// What this process does with signals stays as it is.
#[no_mangle]
extern "C" fn replay_signal(_signal: i32, _does: usize) -> usize {
    0
}

#[no_mangle]
extern "C" fn rattle_arg(at: usize, into: *mut u8, len: usize) -> isize {
    let Some(word) = WORDS.get(at) else { return -1 };
    let into = unsafe { if len == 0 { &mut [][..] } else { std::slice::from_raw_parts_mut(into, len) } };
    let fits = word.len().min(len);
    into[..fits].copy_from_slice(&word[..fits]);
    if fits == word.len() { fits as isize } else { -2 }
}

/// The program says by this number why a call failed, and asks for it afterwards.
static ERROR: AtomicI32 = AtomicI32::new(0);

#[no_mangle]
extern "C" fn rattle_errno() -> i32 {
    ERROR.load(Ordering::Relaxed)
}

#[no_mangle]
extern "C" fn rattle_set_errno(error: i32) {
    ERROR.store(error, Ordering::Relaxed);
}

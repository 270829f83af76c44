//! The calls of bench/others.h by Rust's HashMap.
use std::collections::HashMap;
use std::ptr::{addr_of_mut, null};
use std::slice::from_raw_parts;

#[repr(C)]
pub struct Other {
    int_get: extern "C" fn(u64) -> *const u64,
    int_insert: extern "C" fn(u64, u64) -> i32,
    int_remove: extern "C" fn(u64) -> i32,
    byte_get: unsafe extern "C" fn(*const u8, usize) -> *const u64,
    byte_insert: unsafe extern "C" fn(*const u8, usize, u64) -> i32,
    byte_remove: unsafe extern "C" fn(*const u8, usize) -> i32,
}

static mut INTS: Option<HashMap<u64, u64>> = None;
static mut BYTES: Option<HashMap<Vec<u8>, u64>> = None;

/// The map of words. The bench has one thread.
fn ints() -> &'static mut HashMap<u64, u64> {
    unsafe { (*addr_of_mut!(INTS)).get_or_insert_with(HashMap::new) }
}

/// The map of byte strings.
fn bytes() -> &'static mut HashMap<Vec<u8>, u64> {
    unsafe { (*addr_of_mut!(BYTES)).get_or_insert_with(HashMap::new) }
}

extern "C" fn int_get(key: u64) -> *const u64 {
    ints().get(&key).map_or(null(), |value| value)
}

extern "C" fn int_insert(key: u64, value: u64) -> i32 {
    ints().insert(key, value).is_some() as i32
}

extern "C" fn int_remove(key: u64) -> i32 {
    ints().remove(&key).is_some() as i32
}

unsafe extern "C" fn byte_get(key: *const u8, length: usize) -> *const u64 {
    bytes().get(from_raw_parts(key, length)).map_or(null(), |value| value)
}

unsafe extern "C" fn byte_insert(key: *const u8, length: usize, value: u64) -> i32 {
    bytes().insert(from_raw_parts(key, length).to_vec(), value).is_some() as i32
}

unsafe extern "C" fn byte_remove(key: *const u8, length: usize) -> i32 {
    bytes().remove(from_raw_parts(key, length)).is_some() as i32
}

#[no_mangle]
#[allow(non_upper_case_globals)]
pub static rust_table: Other = Other { int_get, int_insert, int_remove, byte_get, byte_insert, byte_remove };

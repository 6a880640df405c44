//! The part of c/cmcache.h that the example uses.

use std::ffi::{c_char, c_void, CStr, CString};
use std::fmt;

#[repr(C)]
struct Handle {
    full: bool,
    at: *mut c_void,
}

impl Handle {
    const EMPTY: Handle = Handle { full: false, at: std::ptr::null_mut() };
}

#[repr(C)]
struct BadClass {
    kind: u32,
    rule: u32,
    spot: u32,
    at: u64,
}

#[repr(C)]
struct RawCache {
    _private: [u8; 0],
}

const OK: i32 = 0;

extern "C" {
    fn cmcache_status_text(status: i32) -> *const c_char;
    fn cmcache_format(path: *const c_char, top: u32, roots: u32, slots: u32) -> i32;
    fn cmcache_open(path: *const c_char, cache: *mut *mut RawCache, damage: *mut c_void) -> i32;
    fn cmcache_close(cache: *mut RawCache) -> i32;
    fn cmcache_add_loader(
        cache: *mut RawCache,
        loader: *const u8,
        loader_len: usize,
        number: *mut u64,
    ) -> i32;
    fn cmcache_define(
        cache: *mut RawCache,
        loader: *const u8,
        loader_len: usize,
        prepared: *mut Handle,
        number: *mut u64,
    ) -> i32;
    fn cmcache_find(
        cache: *mut RawCache,
        loader: *const u8,
        loader_len: usize,
        name: *const u8,
        name_len: usize,
        record: *mut Handle,
    ) -> i32;
    fn cmcore_prepare(bytes: *const u8, len: usize, to: *mut Handle, bad: *mut BadClass) -> i32;
    fn cmcore_record_words(record: *mut Handle, to: *mut *const u64, count: *mut usize) -> i32;
    fn cmcore_release(handle: *mut Handle) -> i32;
}

/// A status of cmcache.h other than OK.
#[derive(Clone, Copy, Debug, PartialEq, Eq)]
pub struct Error(pub i32);

impl fmt::Display for Error {
    fn fmt(&self, f: &mut fmt::Formatter<'_>) -> fmt::Result {
        // SAFETY: the text is static, and ends with a zero.
        let text = unsafe { CStr::from_ptr(cmcache_status_text(self.0)) };
        f.write_str(&text.to_string_lossy())
    }
}

impl std::error::Error for Error {}

fn done(status: i32) -> Result<(), Error> {
    if status == OK { Ok(()) } else { Err(Error(status)) }
}

/// Makes a new file with an empty cache.
pub fn format(path: &CString, top: u32, roots: u32, slots: u32) -> Result<(), Error> {
    // SAFETY: the path ends with a zero.
    done(unsafe { cmcache_format(path.as_ptr(), top, roots, slots) })
}

/// A cache, which is closed when it is dropped, or by `close`, which says whether that went well.
pub struct Cache {
    raw: *mut RawCache,
}

// SAFETY: all calls with a cache may run at the same time, in any threads. Closing it takes the
// value, so no other call runs or begins.
unsafe impl Send for Cache {}
unsafe impl Sync for Cache {}

impl Cache {
    pub fn open(path: &CString) -> Result<Cache, Error> {
        let mut raw = std::ptr::null_mut();
        // SAFETY: the path ends with a zero; NULL asks for no damage.
        done(unsafe { cmcache_open(path.as_ptr(), &mut raw, std::ptr::null_mut()) })?;
        Ok(Cache { raw })
    }

    pub fn close(self) -> Result<(), Error> {
        let raw = self.raw;
        std::mem::forget(self);
        // SAFETY: the cache was opened, and isn't used after this.
        done(unsafe { cmcache_close(raw) })
    }

    /// Adds a loader; returns the number of the command once it is stored.
    pub fn add_loader(&self, loader: &str) -> Result<u64, Error> {
        let mut number = 0;
        // SAFETY: the cache is open, and the name is read during the call.
        done(unsafe {
            cmcache_add_loader(self.raw, loader.as_ptr(), loader.len(), &mut number)
        })?;
        Ok(number)
    }

    /// Defines a class; returns the number of the command once it is stored.
    pub fn define(&self, loader: &str, class: &mut Prepared) -> Result<u64, Error> {
        let mut number = 0;
        // SAFETY: as above; nobody else uses the prepared class.
        done(unsafe {
            let class = &mut class.handle;
            cmcache_define(self.raw, loader.as_ptr(), loader.len(), class, &mut number)
        })?;
        Ok(number)
    }

    pub fn find(&self, loader: &str, name: &str) -> Result<Record, Error> {
        let mut record = Record { handle: Handle::EMPTY, words: std::ptr::null(), count: 0 };
        // SAFETY: as above; the record is empty. Its words stay where they are until it is dropped.
        unsafe {
            let (at, len) = (name.as_ptr(), name.len());
            let to = &mut record.handle;
            done(cmcache_find(self.raw, loader.as_ptr(), loader.len(), at, len, to))?;
            done(cmcore_record_words(to, &mut record.words, &mut record.count))?;
        }
        Ok(record)
    }
}

impl Drop for Cache {
    fn drop(&mut self) {
        // SAFETY: the cache was opened, and isn't used after this.
        unsafe { cmcache_close(self.raw) };
    }
}

/// A class that is ready to be defined.
pub struct Prepared {
    handle: Handle,
}

// SAFETY: it may go from thread to thread. Each call takes it by `&mut`, so one runs at a time.
unsafe impl Send for Prepared {}

impl Prepared {
    pub fn new(bytes: &[u8]) -> Result<Prepared, Error> {
        let mut prepared = Prepared { handle: Handle::EMPTY };
        let mut bad = BadClass { kind: 0, rule: 0, spot: 0, at: 0 };
        // SAFETY: the bytes are read during the call, and the handle is empty.
        done(unsafe {
            cmcore_prepare(bytes.as_ptr(), bytes.len(), &mut prepared.handle, &mut bad)
        })?;
        Ok(prepared)
    }
}

impl Drop for Prepared {
    fn drop(&mut self) {
        // SAFETY: nobody uses it after this.
        unsafe { cmcore_release(&mut self.handle) };
    }
}

/// The record of a class, which may outlive its cache.
pub struct Record {
    handle: Handle,
    words: *const u64,
    count: usize,
}

// SAFETY: it may go from thread to thread. Its words are never written, and no call is made with it
// until it is dropped.
unsafe impl Send for Record {}
unsafe impl Sync for Record {}

impl Record {
    pub fn words(&self) -> &[u64] {
        // SAFETY: so many words lie there until the record is dropped.
        unsafe { std::slice::from_raw_parts(self.words, self.count) }
    }

    pub fn flags(&self) -> u16 {
        (self.words()[1] & 0xffff) as u16
    }
}

impl Drop for Record {
    fn drop(&mut self) {
        // SAFETY: nobody uses it after this.
        unsafe { cmcore_release(&mut self.handle) };
    }
}

//! An earlier build of the library, opened as a shared object beside the one that is linked.

use std::ffi::{c_char, c_int, c_void, CStr, CString};

use second::calls::Work;

const RTLD_NOW: c_int = 2;

extern "C" {
    fn dlopen(name: *const c_char, mode: c_int) -> *mut c_void;
    fn dlsym(library: *mut c_void, name: *const c_char) -> *mut c_void;
}

type Read = unsafe extern "C" fn(
    *const u8,
    usize,
    *mut u16,
    usize,
    *mut u32,
    usize,
    *mut u16,
    usize,
) -> u64;
type Class = unsafe extern "C" fn(
    usize,
    *const u8,
    usize,
    *mut u16,
    usize,
    *mut u32,
    usize,
    *mut u16,
    usize,
    *mut u8,
    usize,
) -> u64;

#[derive(Debug)]
pub struct Opened {
    read: Read,
    class: Class,
}

impl Opened {
    /// Panics where the object cannot be opened or lacks a call: nothing can be timed then.
    pub fn at(path: &str) -> Self {
        let name = CString::new(path).expect("a path without byte 0");
        // SAFETY: the object runs no code of its own when it is opened.
        let library = unsafe { dlopen(name.as_ptr(), RTLD_NOW) };
        assert!(!library.is_null(), "{path} cannot be opened");
        // SAFETY: the two calls have these types in every version of include/oboefinch.h.
        unsafe {
            Opened {
                read: std::mem::transmute::<*mut c_void, Read>(symbol(library, c"oboefinch_read")),
                class: std::mem::transmute::<*mut c_void, Class>(symbol(
                    library,
                    c"oboefinch_class",
                )),
            }
        }
    }

    pub fn read(&self, sheet: &[u8], work: Work) -> u64 {
        // SAFETY: each pointer goes with the length of its slice.
        unsafe {
            (self.read)(
                sheet.as_ptr(),
                sheet.len(),
                work.clocks.as_mut_ptr(),
                work.clocks.len(),
                work.masks.as_mut_ptr(),
                work.masks.len(),
                work.values.as_mut_ptr(),
                work.values.len(),
            )
        }
    }

    pub fn class(&self, n: usize, list: &[u8], work: Work, answers: &mut [u8]) -> u64 {
        // SAFETY: each pointer goes with the length of its slice.
        unsafe {
            (self.class)(
                n,
                list.as_ptr(),
                list.len(),
                work.clocks.as_mut_ptr(),
                work.clocks.len(),
                work.masks.as_mut_ptr(),
                work.masks.len(),
                work.values.as_mut_ptr(),
                work.values.len(),
                answers.as_mut_ptr(),
                answers.len(),
            )
        }
    }
}

/// # Safety
/// `library` was opened.
unsafe fn symbol(library: *mut c_void, name: &CStr) -> *mut c_void {
    let found = dlsym(library, name.as_ptr());
    assert!(!found.is_null(), "the object has no {name:?}");
    found
}

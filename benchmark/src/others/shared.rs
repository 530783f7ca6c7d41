//! Shared libraries, opened where they are installed.
use std::ffi::{c_char, c_int, c_void, CString};

extern "C" {
    fn dlopen(name: *const c_char, flags: c_int) -> *mut c_void;
    fn dlsym(library: *mut c_void, name: *const c_char) -> *mut c_void;
}

const NOW: c_int = 2;

pub struct Shared(*mut c_void);

fn zero_ended(name: &str) -> CString {
    CString::new(name).expect("a name")
}

impl Shared {
    pub fn open(name: &str) -> Option<Shared> {
        let library = unsafe { dlopen(zero_ended(name).as_ptr(), NOW) };
        (!library.is_null()).then_some(Shared(library))
    }

    /// # Safety
    ///
    /// `F` is the type of a pointer to that function.
    pub unsafe fn function<F: Copy>(&self, name: &str) -> Option<F> {
        assert!(size_of::<F>() == size_of::<*mut c_void>());
        let function = dlsym(self.0, zero_ended(name).as_ptr());
        (!function.is_null()).then(|| std::mem::transmute_copy(&function))
    }
}

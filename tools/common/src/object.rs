//! Shared objects, as the system loads them.

use std::ffi::{CStr, CString, c_char, c_int, c_void};
use std::os::unix::ffi::OsStrExt;
use std::path::Path;
use std::ptr::NonNull;

// std links the C library, which has these.
unsafe extern "C" {
    fn dlopen(file: *const c_char, flags: c_int) -> *mut c_void;
    fn dlsym(object: *mut c_void, name: *const c_char) -> *mut c_void;
    fn dlerror() -> *const c_char;
}

// To look up everything at once, so that no call pays for it.
const RTLD_NOW: c_int = 2;

/// A loaded shared object. It stays loaded until the program ends.
pub struct Object(NonNull<c_void>);

impl Object {
    /// Loads a file.
    pub fn open(file: &Path) -> Result<Object, String> {
        let name = CString::new(file.as_os_str().as_bytes()).map_err(|fault| fault.to_string())?;
        // SAFETY: the name is a string of C. What runs when the file is loaded is its compiler's.
        let object = NonNull::new(unsafe { dlopen(name.as_ptr(), RTLD_NOW) });
        object.map(Object).ok_or_else(|| {
            // SAFETY: after a failure, the system returns a string of C.
            let fault = unsafe { CStr::from_ptr(dlerror()) };
            format!("{} cannot be loaded: {}", file.display(), fault.to_string_lossy())
        })
    }

    /// The function of this name, if the file exports it.
    ///
    /// # Safety
    /// `F` must be the type of the function.
    pub unsafe fn function<F>(&self, name: &str) -> Option<F> {
        assert_eq!(size_of::<F>(), size_of::<*mut c_void>());
        let name = CString::new(name).ok()?;
        // SAFETY: the object was loaded, and the name is a string of C.
        let address = NonNull::new(unsafe { dlsym(self.0.as_ptr(), name.as_ptr()) })?;
        // SAFETY: both are pointers, and the caller promises the type.
        Some(unsafe { std::mem::transmute_copy(&address) })
    }
}

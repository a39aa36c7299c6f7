//! A C library that is found when it is wanted, and its functions by their names.

use std::ffi::{CStr, c_char, c_int, c_void};
use std::mem;
use std::ptr::NonNull;

unsafe extern "C" {
    fn dlopen(file: *const c_char, flags: c_int) -> *mut c_void;
    fn dlsym(library: *mut c_void, name: *const c_char) -> *mut c_void;
    fn dlerror() -> *const c_char;
}

/// Every name that the library itself needs is found now, so that none is missing in the middle of the work.
const RTLD_NOW: c_int = 2;

/// It stays as long as the program runs, so that what was found in it does.
#[derive(Clone, Copy)]
pub(crate) struct Library {
    handle: NonNull<c_void>,
    file: &'static CStr,
}

impl Library {
    /// `package` is what Debian calls what has the file.
    pub(crate) fn open(file: &'static CStr, package: &str) -> Result<Library, String> {
        // SAFETY: the name ends with a 0 byte. What a library does when it is opened is its own affair, as with one that is linked.
        let handle = NonNull::new(unsafe { dlopen(file.as_ptr(), RTLD_NOW) });
        handle
            .map(|handle| Library { handle, file })
            .ok_or_else(|| format!("{} cannot be opened, of the Debian package {package}: {}", file.to_string_lossy(), last_error()))
    }

    /// The function of a name.
    ///
    /// # Safety
    ///
    /// `F` is the type of a pointer to a C function, and the library's function of that name is of that type.
    pub(crate) unsafe fn function<F: Copy>(self, name: &CStr) -> Result<F, String> {
        const { assert!(size_of::<F>() == size_of::<*mut c_void>()) };
        // SAFETY: the handle is that of a library that was opened and is never closed, and the name ends with a 0 byte.
        let found = NonNull::new(unsafe { dlsym(self.handle.as_ptr(), name.as_ptr()) });
        let missing = || format!("{} has no {}: it is older than what is needed here", self.file.to_string_lossy(), name.to_string_lossy());
        // SAFETY: of one size, as is asserted above; that the function is of this type the caller has said.
        found.map(|found| unsafe { mem::transmute_copy(&found) }).ok_or_else(missing)
    }
}

/// What the loader says about the last failure of this thread.
fn last_error() -> String {
    // SAFETY: it takes nothing, and gives NULL or a text of this thread that ends with a 0 byte and stays until its next call, before which it is copied.
    let told = unsafe { dlerror().as_ref().map(|first| CStr::from_ptr(first).to_string_lossy().into_owned()) };
    told.unwrap_or_else(|| "the loader does not say why".to_string())
}

/// The functions of a library as a struct: `table! { struct NAME; function(TYPES) -> TYPE; .. }`, and `NAME::find` looks all of them up. One that takes more
/// than its types say is `function(TYPES; ...)`.
macro_rules! table {
    (struct $table:ident; $($name:ident($($argument:ty),* $(; $more:tt)?) $(-> $answer:ty)?;)*) => {
        #[allow(non_snake_case)] // the names are the library's
        struct $table {
            $($name: unsafe extern "C" fn($($argument),* $(, $more)?) $(-> $answer)?,)*
        }

        impl $table {
            /// # Safety
            ///
            /// The library is the one whose functions have the types above.
            unsafe fn find(library: $crate::library::Library) -> Result<$table, String> {
                // SAFETY: each field is of the type of a pointer to a C function, and the caller has said that it is that function's.
                Ok($table { $($name: unsafe { library.function($crate::library::name(concat!(stringify!($name), "\0")))? },)* })
            }
        }
    };
}
pub(crate) use table;

/// A name that was written with its 0 byte.
pub(crate) fn name(bytes: &'static str) -> &'static CStr {
    CStr::from_bytes_with_nul(bytes.as_bytes()).unwrap_or_default()
}

#[cfg(test)]
mod tests {
    use super::*;

    #[test]
    fn what_is_missing_is_told_by_the_name_of_its_package() {
        let told = Library::open(c"libmissing.so.7", "libmissing7").err().unwrap();
        assert!(told.starts_with("libmissing.so.7 cannot be opened, of the Debian package libmissing7: libmissing.so.7: "), "{told}");
    }

    #[test]
    fn a_function_is_found_by_its_name_or_missed() {
        let library = Library::open(c"libc.so.6", "libc6").unwrap();
        // SAFETY: of the C library, and of that type.
        let absolute: unsafe extern "C" fn(c_int) -> c_int = unsafe { library.function(c"abs") }.unwrap();
        // SAFETY: it takes any number but the least.
        assert_eq!(unsafe { absolute(-7) }, 7);
        // SAFETY: nothing has that name, so that nothing is found to be called.
        let missed = unsafe { library.function::<unsafe extern "C" fn()>(c"no_such_function") };
        assert_eq!(missed.err().unwrap(), "libc.so.6 has no no_such_function: it is older than what is needed here");
    }
}

//! An earlier library of the calls, opened beside the one that is linked, so that both are timed in
//! one run. Only calls whose form has stayed are here.

#![allow(unsafe_code)]

use std::ffi::{CString, c_char, c_int, c_void};
use std::mem::transmute;
use std::sync::OnceLock;

/// `RTLD_NOW` of Linux.
const NOW: c_int = 2;

unsafe extern "C" {
    fn dlopen(path: *const c_char, flags: c_int) -> *mut c_void;
    fn dlsym(library: *mut c_void, name: *const c_char) -> *mut c_void;
}

type RescaleDepth = unsafe extern "C" fn(*const u8, usize, u32, *mut u8, usize) -> u64;
type AttachAlpha = unsafe extern "C" fn(*const u8, usize, *const u8, usize, *mut u8, usize) -> u64;

/// The calls of an earlier library.
pub struct Library {
    rescale_depth: RescaleDepth,
    attach_alpha: AttachAlpha,
}

static OPENED: OnceLock<Library> = OnceLock::new();

/// What a call wrote.
fn wrote(word: u64) -> usize {
    assert!(word < 1 << 63, "the earlier library answered {word:#x}");
    word as usize
}

impl Library {
    /// Opens a shared library that was made of an earlier `libcapi.a`.
    pub fn load(path: &str) -> Result<Self, String> {
        let named = |name: &str| CString::new(name).map_err(|error| error.to_string());
        let file = named(path)?;
        // SAFETY: the C library's function on a text that ends; what it opens runs no code of its own.
        let library = unsafe { dlopen(file.as_ptr(), NOW) };
        if library.is_null() {
            return Err(format!("{path} cannot be opened"));
        }
        let find = |name: &str| {
            let text = named(name)?;
            // SAFETY: the library is open, and stays so.
            let found = unsafe { dlsym(library, text.as_ptr()) };
            if found.is_null() {
                return Err(format!("{path} has no {name}"));
            }
            Ok(found)
        };
        let rescale_depth = find("compose_rescale_depth")?;
        let attach_alpha = find("compose_attach_alpha")?;
        // SAFETY: the header has had both calls in these forms since it has been there.
        Ok(unsafe {
            Self {
                rescale_depth: transmute::<*mut c_void, RescaleDepth>(rescale_depth),
                attach_alpha: transmute::<*mut c_void, AttachAlpha>(attach_alpha),
            }
        })
    }

    pub fn rescale_depth(&self, record: &[u8], depth: u32, out: &mut [u8]) -> usize {
        let (from, to) = (record.as_ptr(), out.as_mut_ptr());
        // SAFETY: each pointer and length are one slice's, borrowed until the call ends.
        wrote(unsafe { (self.rescale_depth)(from, record.len(), depth, to, out.len()) })
    }

    pub fn attach_alpha(&self, master: &[u8], alpha: &[u8], out: &mut [u8]) -> usize {
        let (from, with, to) = (master.as_ptr(), alpha.as_ptr(), out.as_mut_ptr());
        // SAFETY: each pointer and length are one slice's, borrowed until the call ends.
        wrote(unsafe { (self.attach_alpha)(from, master.len(), with, alpha.len(), to, out.len()) })
    }
}

/// Opens the library that the rows are timed beside.
pub fn open(path: &str) -> Result<(), String> {
    let library = Library::load(path)?;
    OPENED
        .set(library)
        .map_err(|_| "--before names one library".into())
}

/// The library, where one is open.
pub fn opened() -> Option<&'static Library> {
    OPENED.get()
}

#[cfg(test)]
mod tests {
    use super::Library;
    use crate::operations::picture;
    use compose::sys;
    use std::process::Command;
    use std::{env, fs, process};

    /// The linked library as docs/PERFORMANCE.md makes a shared one of it.
    fn shared() -> Library {
        let root = concat!(env!("CARGO_MANIFEST_DIR"), "/../..");
        let path = env::temp_dir().join(format!("before-{}.so", process::id()));
        let made = Command::new("cc")
            .args(["-shared", "-Wl,-Bsymbolic", "-o"])
            .arg(&path)
            .arg("-Wl,--whole-archive")
            .arg(format!("{root}/target/staticlib/libcapi.a"))
            .arg("-Wl,--no-whole-archive")
            .status()
            .expect("cc");
        assert!(made.success());
        let library = Library::load(path.to_str().expect("a path")).expect("a library");
        fs::remove_file(path).expect("the library's file");
        library
    }

    #[test]
    fn a_library_is_called_beside_the_linked_one() {
        let library = shared();
        let record = picture(10, 16).record();
        let (mut linked, mut loaded) = (vec![0; record.len()], vec![0; record.len()]);
        let length = sys::compose_rescale_depth(&record, 8, &mut linked).expect("a record");
        assert_eq!(
            library.rescale_depth(&record, 8, &mut loaded),
            length as usize
        );
        assert_eq!(linked, loaded);
        let master = linked[..length as usize].to_vec();
        let (mut linked, mut loaded) = (vec![0; 4_096], vec![0; 4_096]);
        let length = sys::compose_attach_alpha(&master, &record, &mut linked).expect("a record");
        assert_eq!(
            library.attach_alpha(&master, &record, &mut loaded),
            length as usize
        );
        assert_eq!(linked, loaded);
    }

    #[test]
    fn what_is_no_library_is_refused() {
        let refused = Library::load("no such file").err();
        assert_eq!(refused.as_deref(), Some("no such file cannot be opened"));
        assert!(Library::load("a\0b").is_err());
    }
}

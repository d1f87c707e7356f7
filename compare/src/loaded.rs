//! An archive of the library loaded while the program runs, so that several can be measured side by side.

#![allow(unsafe_code)]

use std::ffi::{c_char, c_int, c_void, CStr, CString};
use std::os::unix::ffi::OsStrExt;
use std::path::{Path, PathBuf};
use std::process::Command;
use std::sync::atomic::{AtomicU32, Ordering};
use std::{env, fs, mem, process};

use crate::program::Answer;

type Check = unsafe extern "C" fn(*const u32, usize) -> Answer;
type Pass =
    unsafe extern "C" fn(*const u32, usize, *mut u32, usize, u32, *mut u32, usize) -> Answer;

extern "C" {
    fn dlopen(path: *const c_char, flags: c_int) -> *mut c_void;
    fn dlsym(object: *mut c_void, name: *const c_char) -> *mut c_void;
}

/// All names are looked up when an object is loaded.
const RTLD_NOW: c_int = 2;

/// The two exports whose form never changes. The object stays loaded to the end of the program.
pub struct Loaded {
    check: Check,
    pass: Pass,
}

impl Loaded {
    /// Loads `libkettleflock.a` in a folder.
    pub fn new(folder: &Path) -> Result<Loaded, String> {
        let object = shared_object(&folder.join("libkettleflock.a"))?;
        let loaded = load(&object);
        fs::remove_file(&object).map_err(|what| what.to_string())?;
        let loaded = loaded?;
        // SAFETY: these are the forms of the two exports in every archive of the library.
        unsafe {
            Ok(Loaded {
                check: mem::transmute::<*mut c_void, Check>(find(loaded, c"kf_check")?),
                pass: mem::transmute::<*mut c_void, Pass>(find(loaded, c"kf_pass")?),
            })
        }
    }

    /// `kf_check`.
    pub fn check(&self, table: &[u32]) -> Answer {
        // SAFETY: pointer and length come from one borrowed slice, and the library keeps no pointer.
        unsafe { (self.check)(table.as_ptr(), table.len()) }
    }

    /// `kf_pass`.
    pub fn pass(
        &self,
        source: &[u32],
        target: &mut [u32],
        row: u32,
        answers: &mut [u32],
    ) -> Answer {
        // SAFETY: as for `check`; slices lent as `&mut` overlap no other.
        unsafe {
            (self.pass)(
                source.as_ptr(),
                source.len(),
                target.as_mut_ptr(),
                target.len(),
                row,
                answers.as_mut_ptr(),
                answers.len(),
            )
        }
    }
}

/// Makes a shared object of a whole archive, in a file of its own.
fn shared_object(archive: &Path) -> Result<PathBuf, String> {
    static MADE: AtomicU32 = AtomicU32::new(0);
    let number = MADE.fetch_add(1, Ordering::Relaxed);
    let object = env::temp_dir().join(format!("kettleflock-{}-{number}.so", process::id()));
    let made = Command::new("cc")
        .args(["-shared", "-Wl,-Bsymbolic", "-Wl,--whole-archive"])
        .arg(archive)
        .args(["-Wl,--no-whole-archive", "-o"])
        .arg(&object)
        .status();
    match made {
        Ok(status) if status.success() => Ok(object),
        _ => Err(format!("no shared object of {}", archive.display())),
    }
}

/// Loads a shared object.
fn load(object: &Path) -> Result<*mut c_void, String> {
    let path = CString::new(object.as_os_str().as_bytes()).map_err(|what| what.to_string())?;
    // SAFETY: the path is a string with its end, and the object runs nothing when it is loaded.
    let loaded = unsafe { dlopen(path.as_ptr(), RTLD_NOW) };
    if loaded.is_null() {
        return Err(format!("{} can't be loaded", object.display()));
    }
    Ok(loaded)
}

/// Where a name of a loaded object lies.
fn find(loaded: *mut c_void, name: &CStr) -> Result<*mut c_void, String> {
    // SAFETY: the object is loaded, and the name is a string with its end.
    let place = unsafe { dlsym(loaded, name.as_ptr()) };
    if place.is_null() {
        return Err(format!("there is no {name:?}"));
    }
    Ok(place)
}

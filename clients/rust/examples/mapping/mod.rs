//! Files that are mapped into memory, with std and the C library alone, on 64-bit Unix.

// Each example uses a part of this module.
#![allow(dead_code)]

use std::ffi::{c_int, c_void};
use std::fs::File;
use std::io::{Error, ErrorKind, Result};
use std::ops::{Deref, DerefMut};
use std::os::fd::AsRawFd;
use std::path::{Path, PathBuf};
use std::ptr::{null_mut, NonNull};
use std::{env, fs, process};

use hodkhaki::StableBytes;

// These numbers are those of Linux, macOS and the BSDs.
const PROT_READ: c_int = 1;
const PROT_WRITE: c_int = 2;
const MAP_SHARED: c_int = 1;

#[cfg(not(all(unix, target_pointer_width = "64")))]
compile_error!("the declaration of mmap is that of 64-bit Unix");

unsafe extern "C" {
    fn mmap(
        address: *mut c_void,
        length: usize,
        protection: c_int,
        flags: c_int,
        file: c_int,
        offset: i64,
    ) -> *mut c_void;
    fn munmap(address: *mut c_void, length: usize) -> c_int;
}

/// The bytes of a file, mapped to read. They are unmapped when the mapping is dropped.
pub struct Mapping {
    address: NonNull<u8>,
    length: usize,
}

// SAFETY: a mapping owns its bytes, as a `Vec` does, and any thread may unmap them.
unsafe impl Send for Mapping {}

// SAFETY: a shared reference to a mapping only reads the bytes.
unsafe impl Sync for Mapping {}

impl Mapping {
    /// Maps a file to read.
    ///
    /// # Errors
    /// - The file can't be opened, or is empty.
    /// - The system can't map it.
    ///
    /// # Safety
    /// Nobody changes or truncates the file while the mapping is in use.
    pub unsafe fn open(path: &Path) -> Result<Self> {
        Mapping::of(&File::open(path)?, PROT_READ)
    }

    fn of(file: &File, protection: c_int) -> Result<Self> {
        let length = usize::try_from(file.metadata()?.len()).map_err(Error::other)?;
        if length == 0 {
            return Err(Error::new(ErrorKind::InvalidData, "the file is empty"));
        }
        // SAFETY: the system chooses the address of the mapping, so no other memory is changed.
        let address = unsafe {
            let file = file.as_raw_fd();
            mmap(null_mut(), length, protection, MAP_SHARED, file, 0)
        };
        if address as isize == -1 {
            return Err(Error::last_os_error());
        }
        let address = NonNull::new(address.cast()).expect("a mapping is not at address 0");
        Ok(Mapping { address, length })
    }
}

impl Deref for Mapping {
    type Target = [u8];

    fn deref(&self) -> &[u8] {
        // SAFETY: the bytes are mapped until `self` is dropped, and nobody else changes them.
        unsafe { std::slice::from_raw_parts(self.address.as_ptr(), self.length) }
    }
}

// SAFETY: nobody changes the file, by the requirement of `open`, and nothing here writes the bytes. A
// move leaves them where they are.
unsafe impl StableBytes for Mapping {
    fn stable_bytes(&self) -> &[u8] {
        self
    }
}

impl Drop for Mapping {
    fn drop(&mut self) {
        // SAFETY: the mapping is unmapped only here, and no borrow of its bytes remains.
        unsafe { munmap(self.address.as_ptr().cast(), self.length) };
    }
}

/// The bytes of a file, mapped to read and to write. What is written is in the file.
pub struct MappingMut(Mapping);

impl MappingMut {
    /// Maps a file to read and to write.
    ///
    /// # Errors
    /// As [`Mapping::open`].
    ///
    /// # Safety
    /// Nobody else reads, changes or truncates the file while the mapping is in use.
    pub unsafe fn open(path: &Path) -> Result<Self> {
        let file = File::options().read(true).write(true).open(path)?;
        Mapping::of(&file, PROT_READ | PROT_WRITE).map(MappingMut)
    }
}

impl Deref for MappingMut {
    type Target = [u8];

    fn deref(&self) -> &[u8] {
        &self.0
    }
}

impl DerefMut for MappingMut {
    fn deref_mut(&mut self) -> &mut [u8] {
        // SAFETY: as for `Mapping`. The bytes are mapped to write, and are borrowed mutably.
        unsafe { std::slice::from_raw_parts_mut(self.0.address.as_ptr(), self.0.length) }
    }
}

/// A temporary file, which is removed when this is dropped.
pub struct Temporary(PathBuf);

impl Temporary {
    /// Creates an empty file in the folder of temporary files. Its name begins with the number of
    /// this process.
    ///
    /// # Errors
    /// The file is already there, or can't be created.
    pub fn new(name: &str) -> Result<Self> {
        let path = env::temp_dir().join(format!("{}-{name}", process::id()));
        File::create_new(&path)?;
        Ok(Temporary(path))
    }
}

impl Deref for Temporary {
    type Target = Path;

    fn deref(&self) -> &Path {
        &self.0
    }
}

impl Drop for Temporary {
    fn drop(&mut self) {
        let _ = fs::remove_file(&self.0);
    }
}

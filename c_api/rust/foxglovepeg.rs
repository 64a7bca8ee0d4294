//! Foxglovepeg for Rust: objects of 1 to 4,088 bytes behind handles that no stale copy can misuse, and maps from bytes to bytes, some near, the others packed in
//! memory, or in a file. `foxglovepeg.h` tells each call; here what C owes is seen to: a worker and a map are closed where they go, can't be copied, and stay on their thread.
//! It isn't proved. As a crate, FOLDER being what scripts/c_library filled:
//!
//! ```text
//! rustc --edition 2021 -O --crate-type rlib -L FOLDER/lib -l static=foxglovepeg FOLDER/rust/foxglovepeg.rs
//! rustc --edition 2021 -O -L FOLDER/lib --extern foxglovepeg=libfoxglovepeg.rlib PROGRAM.rs
//! ```

use std::ffi::CString;
use std::fmt;
use std::os::unix::ffi::OsStrExt;
use std::path::Path;

mod raw {
    use super::Statistics;
    use std::ffi::c_char;

    #[repr(C)]
    pub struct Held {
        pub live: bool,
        pub at: *mut u8,
    }

    pub const NONE: Held = Held { live: false, at: std::ptr::null_mut() };

    #[repr(C)]
    pub struct Plan {
        pub near_bytes: u64,
        pub entries: u64,
        pub long_near_bytes: u64,
        pub long_parts: u64,
        pub seed: [u64; 2],
        pub typical: u16,
    }

    extern "C" {
        pub fn far_open_memory(worker: *mut Held, near_bytes: u64, objects: u64, typical: u16) -> i32;
        pub fn far_open_folder(worker: *mut Held, near_bytes: u64, objects: u64, typical: u16, folder: *const c_char, far_bytes: u64) -> i32;
        pub fn far_trim(worker: *const Held) -> i32;
        pub fn far_close(worker: *mut Held) -> i32;
        pub fn far_least_near(objects: u64, typical: u16, bytes: *mut u64) -> i32;
        pub fn far_alloc(worker: *mut Held, bytes: *const u8, len: usize, structure: u8, handle: *mut u64) -> i32;
        pub fn far_alloc_zeros(worker: *mut Held, len: u16, structure: u8, handle: *mut u64) -> i32;
        pub fn far_read(worker: *mut Held, handle: u64, from: usize, out: *mut u8, len: usize) -> i32;
        pub fn far_write(worker: *mut Held, handle: u64, from: usize, bytes: *const u8, len: usize) -> i32;
        pub fn far_exchange(worker: *mut Held, handle: u64, from: usize, bytes: *mut u8, len: usize) -> i32;
        pub fn far_drop(worker: *mut Held, handle: u64) -> i32;
        pub fn far_length(worker: *mut Held, handle: u64, len: *mut u16) -> i32;
        pub fn far_holds(worker: *mut Held, handle: u64) -> i32;
        pub fn far_add_heap(worker: *mut Held) -> i32;
        pub fn far_statistics(worker: *mut Held, statistics: *mut Statistics) -> i32;
        pub fn far_map_open_memory(map: *mut Held, plan: *const Plan) -> i32;
        pub fn far_map_open_folder(map: *mut Held, plan: *const Plan, folder: *const c_char, far_bytes: u64, long_far_bytes: u64) -> i32;
        pub fn far_map_trim(map: *const Held) -> i32;
        pub fn far_map_close(map: *mut Held) -> i32;
        pub fn far_map_put(map: *mut Held, key: *const u8, key_len: usize, value: *const u8, value_len: usize) -> i32;
        pub fn far_map_get(map: *mut Held, key: *const u8, key_len: usize, out: *mut u8, room: usize, len: *mut usize) -> i32;
        pub fn far_map_remove(map: *mut Held, key: *const u8, key_len: usize) -> i32;
        pub fn far_map_holds(map: *mut Held, key: *const u8, key_len: usize) -> i32;
        pub fn far_map_length(map: *mut Held, len: *mut usize) -> i32;
        pub fn far_map_clear(map: *mut Held) -> i32;
        pub fn far_map_begin(map: *mut Held) -> i32;
        pub fn far_map_next(map: *mut Held, key: *mut u8, key_room: usize, key_len: *mut usize, value: *mut u8, value_room: usize, value_len: *mut usize) -> i32;
        pub fn far_map_statistics(map: *mut Held, entries: *mut Statistics, long_parts: *mut Statistics) -> i32;
    }
}

macro_rules! errors {
    ($($name:ident = $status:literal, $words:literal;)*) => {
        /// Why a call was refused: the status of that name. Nothing has changed then.
        #[derive(Clone, Copy, Debug, PartialEq, Eq, Hash)]
        #[non_exhaustive]
        pub enum Error {
            $(#[doc = $words] $name,)*
            /// A folder's name has a byte 0: no call was made. Its status is that of [`Error::File`].
            InvalidInput,
            /// A status that this file doesn't know.
            Other(i32),
        }

        impl Error {
            /// The status.
            pub fn status(self) -> i32 {
                match self {
                    $(Error::$name => $status,)*
                    Error::InvalidInput => Error::File.status(),
                    Error::Other(status) => status,
                }
            }

            fn of(status: i32) -> Error {
                match status {
                    $($status => Error::$name,)*
                    _ => Error::Other(status),
                }
            }
        }

        impl fmt::Display for Error {
            fn fmt(&self, f: &mut fmt::Formatter<'_>) -> fmt::Result {
                match self {
                    $(Error::$name => f.write_str($words),)*
                    Error::InvalidInput => f.write_str("a folder's name has a byte 0"),
                    Error::Other(status) => write!(f, "status {status}"),
                }
            }
        }
    };
}

errors! {
    Memory = 1, "out of memory";
    NoRoom = 2, "nothing near can leave: memory is refused, or the far side is full";
    NoPointer = 3, "each heap has its 2,048 objects";
    Length = 4, "an object has 1 to 4,088 bytes; a key at most 4,086";
    NotHeld = 7, "there is no such object";
    Range = 8, "no byte was asked for, or they pass the object's end";
    Device = 10, "a far object is lost";
    Damaged = 11, "a far object has another length";
    EpochsSpent = 13, "2^62 rounds were made";
    Closed = 20, "it is not open";
    Open = 21, "it is open already";
    Objects = 22, "a worker has at most 2^32 objects";
    Near = 23, "too few bytes near for so many objects";
    File = 27, "the system refused the file";
    Far = 28, "too few bytes far for so many heaps";
}

impl std::error::Error for Error {}

const NO_KEY: i32 = 24;
const SHORT: i32 = 25;
const END: i32 = 26;

fn done(status: i32) -> Result<(), Error> {
    if status == 0 {
        Ok(())
    } else {
        Err(Error::of(status))
    }
}

/// Whether there was such a key.
fn there(status: i32) -> Result<bool, Error> {
    if status == NO_KEY {
        return Ok(false);
    }
    done(status).map(|()| true)
}

/// What a worker has, and what it has done: `struct far_statistics`.
#[repr(C)]
#[derive(Clone, Copy, Debug, Default, PartialEq, Eq)]
pub struct Statistics {
    pub near_objects: u64,
    pub far_objects: u64,
    pub live: u64,
    pub dead: u64,
    pub unused: u64,
    pub far_bytes: u64,
    pub accesses: u64,
    pub fetches: u64,
    pub looks: u64,
    pub evictions: u64,
    pub writes_spared: u64,
    pub moves: u64,
    pub rounds: u64,
    pub device_faults: u64,
    pub heaps: u32,
}

/// Names an object: a worker refuses it once that was dropped.
#[derive(Clone, Copy, Debug, PartialEq, Eq, Hash, PartialOrd, Ord)]
pub struct Handle(pub u64);

/// The fewest bytes near for so many objects of such a length.
pub fn least_near(objects: u64, typical: u16) -> Result<u64, Error> {
    let mut bytes = 0;
    done(unsafe { raw::far_least_near(objects, typical, &mut bytes) })?;
    Ok(bytes)
}

/// A folder as C has it, which ends a name at a byte 0.
fn path_of(folder: &Path) -> Result<CString, Error> {
    CString::new(folder.as_os_str().as_bytes()).map_err(|_| Error::InvalidInput)
}

/// Objects of 1 to 4,088 bytes by handle.
pub struct Worker(raw::Held);

impl Worker {
    pub fn in_memory(near_bytes: u64, objects: u64, typical: u16) -> Result<Worker, Error> {
        let mut held = raw::NONE;
        done(unsafe { raw::far_open_memory(&mut held, near_bytes, objects, typical) })?;
        Ok(Worker(held))
    }

    /// Far objects lie in a file of a folder, without a name, of so many bytes. After [`Error::File`] `std::io::Error::last_os_error()` tells why.
    pub fn in_folder(near_bytes: u64, objects: u64, typical: u16, folder: &Path, far_bytes: u64) -> Result<Worker, Error> {
        let (mut held, path) = (raw::NONE, path_of(folder)?);
        done(unsafe { raw::far_open_folder(&mut held, near_bytes, objects, typical, path.as_ptr(), far_bytes) })?;
        Ok(Worker(held))
    }

    /// Gives back memory that has what the file has too: to be called now and then.
    pub fn trim(&mut self) {
        unsafe { raw::far_trim(&self.0) };
    }

    pub fn alloc(&mut self, bytes: &[u8], structure: u8) -> Result<Handle, Error> {
        let mut handle = 0;
        done(unsafe { raw::far_alloc(&mut self.0, bytes.as_ptr(), bytes.len(), structure, &mut handle) })?;
        Ok(Handle(handle))
    }

    pub fn alloc_zeros(&mut self, len: u16, structure: u8) -> Result<Handle, Error> {
        let mut handle = 0;
        done(unsafe { raw::far_alloc_zeros(&mut self.0, len, structure, &mut handle) })?;
        Ok(Handle(handle))
    }

    pub fn read(&mut self, handle: Handle, from: usize, out: &mut [u8]) -> Result<(), Error> {
        done(unsafe { raw::far_read(&mut self.0, handle.0, from, out.as_mut_ptr(), out.len()) })
    }

    pub fn write(&mut self, handle: Handle, from: usize, bytes: &[u8]) -> Result<(), Error> {
        done(unsafe { raw::far_write(&mut self.0, handle.0, from, bytes.as_ptr(), bytes.len()) })
    }

    /// Writes bytes, and gives back in their place those that were there.
    pub fn exchange(&mut self, handle: Handle, from: usize, bytes: &mut [u8]) -> Result<(), Error> {
        done(unsafe { raw::far_exchange(&mut self.0, handle.0, from, bytes.as_mut_ptr(), bytes.len()) })
    }

    pub fn drop_object(&mut self, handle: Handle) -> Result<(), Error> {
        done(unsafe { raw::far_drop(&mut self.0, handle.0) })
    }

    /// How many bytes an object has; `None` where there is none.
    pub fn len_of(&mut self, handle: Handle) -> Option<u16> {
        let mut len = 0;
        done(unsafe { raw::far_length(&mut self.0, handle.0, &mut len) }).ok().map(|()| len)
    }

    pub fn holds(&mut self, handle: Handle) -> bool {
        unsafe { raw::far_holds(&mut self.0, handle.0) == 0 }
    }

    /// Room for 2,048 objects more.
    pub fn add_heap(&mut self) -> Result<(), Error> {
        done(unsafe { raw::far_add_heap(&mut self.0) })
    }

    pub fn statistics(&mut self) -> Statistics {
        let mut all = Statistics::default();
        unsafe { raw::far_statistics(&mut self.0, &mut all) };
        all
    }
}

impl Drop for Worker {
    fn drop(&mut self) {
        unsafe { raw::far_close(&mut self.0) };
    }
}

/// What a map is to have: `struct far_map_plan`.
#[derive(Clone, Copy, Debug)]
pub struct MapPlan {
    pub near_bytes: u64,
    pub entries: u64,
    pub typical: u16,
    pub long_near_bytes: u64,
    pub long_parts: u64,
    /// 16 bytes for the hash of keys: where others choose keys, at random, and told to nobody.
    pub seed: [u64; 2],
}

impl MapPlan {
    fn raw(self) -> raw::Plan {
        let MapPlan { near_bytes, entries, typical, long_near_bytes, long_parts, seed } = self;
        raw::Plan { near_bytes, entries, long_near_bytes, long_parts, seed, typical }
    }
}

/// A map from bytes to bytes.
pub struct Map(raw::Held);

impl Map {
    pub fn in_memory(plan: MapPlan) -> Result<Map, Error> {
        let mut held = raw::NONE;
        done(unsafe { raw::far_map_open_memory(&mut held, &plan.raw()) })?;
        Ok(Map(held))
    }

    /// Far entries lie in a file of a folder, as [`Worker::in_folder`] has objects: so many bytes for entries, and so many for parts of long values.
    pub fn in_folder(plan: MapPlan, folder: &Path, far_bytes: u64, long_far_bytes: u64) -> Result<Map, Error> {
        let (mut held, path) = (raw::NONE, path_of(folder)?);
        done(unsafe { raw::far_map_open_folder(&mut held, &plan.raw(), path.as_ptr(), far_bytes, long_far_bytes) })?;
        Ok(Map(held))
    }

    /// Gives back memory that has what the file has too: to be called now and then.
    pub fn trim(&mut self) {
        unsafe { raw::far_map_trim(&self.0) };
    }

    pub fn put(&mut self, key: &[u8], value: &[u8]) -> Result<(), Error> {
        done(unsafe { raw::far_map_put(&mut self.0, key.as_ptr(), key.len(), value.as_ptr(), value.len()) })
    }

    /// Whether there is such a key; then `out` has its value, and grows for it.
    pub fn get(&mut self, key: &[u8], out: &mut Vec<u8>) -> Result<bool, Error> {
        let mut len = 0;
        out.resize(out.capacity(), 0);
        loop {
            let status = unsafe { raw::far_map_get(&mut self.0, key.as_ptr(), key.len(), out.as_mut_ptr(), out.len(), &mut len) };
            if status != SHORT {
                let found = there(status)?;
                out.truncate(if found { len } else { 0 });
                return Ok(found);
            }
            out.resize(len, 0);
        }
    }

    /// Whether there was such a key, which is gone.
    pub fn remove(&mut self, key: &[u8]) -> Result<bool, Error> {
        there(unsafe { raw::far_map_remove(&mut self.0, key.as_ptr(), key.len()) })
    }

    pub fn contains_key(&mut self, key: &[u8]) -> Result<bool, Error> {
        there(unsafe { raw::far_map_holds(&mut self.0, key.as_ptr(), key.len()) })
    }

    pub fn len(&mut self) -> usize {
        let mut len = 0;
        unsafe { raw::far_map_length(&mut self.0, &mut len) };
        len
    }

    pub fn is_empty(&mut self) -> bool {
        self.len() == 0
    }

    pub fn clear(&mut self) {
        unsafe { raw::far_map_clear(&mut self.0) };
    }

    /// Calls `visit` with each key and its value once, until it answers `false`.
    pub fn for_each(&mut self, mut visit: impl FnMut(&[u8], &[u8]) -> bool) -> Result<(), Error> {
        let (mut key, mut value) = (vec![0; 4086], vec![0; 4088]);
        let (mut key_len, mut value_len) = (0, 0);
        done(unsafe { raw::far_map_begin(&mut self.0) })?;
        loop {
            let (at, room, into, space) = (key.as_mut_ptr(), key.len(), value.as_mut_ptr(), value.len());
            match unsafe { raw::far_map_next(&mut self.0, at, room, &mut key_len, into, space, &mut value_len) } {
                END => return Ok(()),
                SHORT => value.resize(value_len, 0),
                status => {
                    done(status)?;
                    if !visit(&key[..key_len], &value[..value_len]) {
                        return Ok(());
                    }
                }
            }
        }
    }

    /// Of entries of at most 4,086 bytes, and of the parts of longer values.
    pub fn statistics(&mut self) -> (Statistics, Statistics) {
        let (mut entries, mut parts) = (Statistics::default(), Statistics::default());
        unsafe { raw::far_map_statistics(&mut self.0, &mut entries, &mut parts) };
        (entries, parts)
    }
}

impl Drop for Map {
    fn drop(&mut self) {
        unsafe { raw::far_map_close(&mut self.0) };
    }
}

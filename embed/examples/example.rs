//! A Rust program that links the library: it makes a store in memory, puts an object and reads it again. It has no
//! file; a program that has one lends its bytes, and replays the log on it after each call.
use std::os::raw::c_void;

#[repr(C)]
struct Store {
    at: *mut c_void,
}

/// Memory that is lent.
#[repr(C)]
struct Region {
    at: *mut u8,
    n: usize,
}

#[link(name = "costore", kind = "static")]
extern "C" {
    fn costore_new(file: Region, length: u64, log: Region, store: *mut Store) -> i32;
    fn costore_format(store: *mut Store, k: u64, names: u64) -> i32;
    fn costore_put(store: *mut Store, name: *const u8, n: usize, object: *const u8, m: usize) -> i32;
    fn costore_keep(store: *mut Store) -> i32;
    fn costore_get(store: *const Store, name: *const u8, n: usize, out: *mut u8, m: usize, size: *mut u64) -> i32;
    fn costore_lengths(store: *const Store, log: *mut u64, file: *mut u64) -> i32;
    fn costore_free(store: *mut Store);
}

fn main() {
    let mut store = Store { at: std::ptr::null_mut() };
    let (mut room, mut notes) = (vec![0u8; 1 << 22], vec![0u8; 1 << 20]);
    let for_file = Region { at: room.as_mut_ptr(), n: room.len() };
    let for_log = Region { at: notes.as_mut_ptr(), n: notes.len() };
    let name = b"hello";
    let object = b"world";
    let mut out = [0u8; 64];
    let (mut size, mut log, mut file) = (0u64, 0u64, 0u64);
    // The pointers are those of slices and locals, with their lengths; the handle is used by one call at a time.
    // Nothing else uses the two vectors until it is freed.
    unsafe {
        println!("new {}", costore_new(for_file, 0, for_log, &mut store));
        println!("format {}", costore_format(&mut store, 9, 1024));
        costore_put(&mut store, name.as_ptr(), name.len(), object.as_ptr(), object.len());
        println!("keep {}", costore_keep(&mut store));
        costore_lengths(&store, &mut log, &mut file);
        println!("the log has {log} bytes");
        let code = costore_get(&store, name.as_ptr(), name.len(), out.as_mut_ptr(), out.len(), &mut size);
        println!("get {code} {}", String::from_utf8_lossy(&out[..size as usize]));
        costore_free(&mut store);
    }
}

//! The report program's fsync, put before the C library's by LD_PRELOAD. It writes a
//! line to the file FLUSHES: what is flushed, and how many octets out.bin and standard
//! output have by then. FLUSH_FAILS says which flush fails, and with which errno.
use std::{env, fs, fs::OpenOptions, io::Write};

unsafe extern "C" { fn __errno_location() -> *mut i32; }

fn octets(path: &str) -> i64 { fs::metadata(path).map_or(-1, |found| found.len() as i64) }

#[unsafe(no_mangle)]
pub extern "C" fn fsync(fd: i32) -> i32 {
    let path = format!("/proc/self/fd/{fd}");
    let kind = if fs::metadata(&path).is_ok_and(|found| found.is_dir()) { "folder" } else { "file" };
    let size = if kind == "file" { format!(" of {}", octets(&path)) } else { String::new() };
    let line = format!("{kind}{size}, out.bin {}, printed {}\n", octets("out.bin"), octets("/proc/self/fd/1"));
    let file = OpenOptions::new().append(true).create(true).open(env::var("FLUSHES").unwrap_or_default());
    if file.and_then(|mut file| file.write_all(line.as_bytes())).is_err() { return -1; }
    let error = match (env::var("FLUSH_FAILS").as_deref(), kind) {
        (Ok("file EIO"), "file") | (Ok("folder EIO"), "folder") => 5,
        (Ok("folder EINVAL"), "folder") => 22,
        _ => return 0,
    };
    unsafe { *__errno_location() = error };
    -1
}

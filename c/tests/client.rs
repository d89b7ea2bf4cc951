//! Links the library from Rust: the picture of a script at an instant as a PPM image, as demo.c writes it.
//!
//!     client MS WxH SCRIPT FONT.. > frame.ppm
use std::ffi::{c_char, CStr};
use std::io::Write;
use std::{env, fs, io, process, ptr};

#[repr(C)]
struct Handle {
    _private: [u8; 0],
}

#[link(name = "vimalorua")]
extern "C" {
    fn vimalorua_status_text(status: i32) -> *const c_char;
    fn vimalorua_open(script: *const u8, len: usize, budget: u64, out: *mut *mut Handle, place: *mut usize) -> i32;
    fn vimalorua_add_font(handle: *mut Handle, font: *const u8, len: usize, place: *mut usize) -> i32;
    fn vimalorua_feed_lines(handle: *mut Handle, place: *mut usize) -> i32;
    fn vimalorua_draw(handle: *mut Handle, ms: i64, w: u32, h: u32, out: *mut u8, len: usize) -> i32;
    fn vimalorua_close(handle: *mut Handle);
}

fn check(status: i32) {
    if status != 0 {
        // SAFETY: a text of the library's is never null, ends with a 0 and stays.
        let text = unsafe { CStr::from_ptr(vimalorua_status_text(status)) };
        eprintln!("client: {}", text.to_string_lossy());
        process::exit(1);
    }
}

fn main() -> io::Result<()> {
    let words: Vec<String> = env::args().collect();
    let (w, h) = words[2].split_once('x').expect("a size");
    let (w, h): (u32, u32) = (w.parse().expect("columns"), h.parse().expect("rows"));
    let ms = words[1].parse().expect("milliseconds");
    let script = fs::read(&words[3])?;
    let mut rgb = vec![0; 3 * w as usize * h as usize];
    let (mut handle, mut place) = (ptr::null_mut(), 0);
    // SAFETY: each pointer is one of a place, or of as many items as stand behind it, and the handle is the one of open.
    unsafe {
        check(vimalorua_open(script.as_ptr(), script.len(), 1 << 20, &mut handle, &mut place));
        for name in &words[4..] {
            let font = fs::read(name)?;
            check(vimalorua_add_font(handle, font.as_ptr(), font.len(), &mut place));
        }
        check(vimalorua_feed_lines(handle, &mut place));
        check(vimalorua_draw(handle, ms, w, h, rgb.as_mut_ptr(), rgb.len()));
        vimalorua_close(handle);
    }
    let mut out = io::stdout().lock();
    write!(out, "P6\n{w} {h}\n255\n")?;
    out.write_all(&rgb)
}

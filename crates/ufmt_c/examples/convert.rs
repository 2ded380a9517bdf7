//! Prints a value's plain text as pretty text: convert '[Pair { x: 1, y: -2 }]'
const TOKEN: u32 = 0;
const PRETTY: u32 = 1;
const FULL: isize = -2;
#[link(name = "ufmt_c", kind = "static")]
unsafe extern "C" {
    fn ufmt_convert(
        to: *mut u8,
        size: usize,
        text_class: u32,
        mode: u32,
        from: *const u8,
        length: usize,
        detail: &mut usize,
    ) -> isize;
}

fn to_pretty(buffer: &mut [u8], input: &[u8]) -> Result<usize, String> {
    let (to, from, mut detail) = (buffer.as_mut_ptr(), input.as_ptr(), 0);
    // SAFETY: each pointer and the length after it are those of one slice, and no two overlap.
    match unsafe { ufmt_convert(to, buffer.len(), TOKEN, PRETTY, from, input.len(), &mut detail) } {
        FULL => Err(format!("a buffer of {detail} bytes will do")),
        ..0 => Err(format!("not a text from byte {detail} on")),
        length => Ok(length as usize),
    }
}

fn main() -> Result<(), String> {
    let input = std::env::args().nth(1).ok_or("pass a text")?;
    let mut buffer = [0; 256];
    let length = to_pretty(&mut buffer, input.as_bytes())?;
    println!("{}", String::from_utf8_lossy(&buffer[..length]));
    Ok(())
}

//! Prints what `seat` prints of the input on standard input, or with the word `rehearse` what `rehearse` prints.
use std::io::{self, Read, Write};

type Call = unsafe extern "C" fn(*const u8, usize, *mut u8, usize) -> i64;

// As in `include/pallurge.h`: nothing compares the two declarations.
unsafe extern "C" {
    fn pallurge_seat(
        input: *const u8,
        input_length: usize,
        buffer: *mut u8,
        buffer_length: usize,
    ) -> i64;
    fn pallurge_rehearse(
        input: *const u8,
        input_length: usize,
        buffer: *mut u8,
        buffer_length: usize,
    ) -> i64;
}

/// Why nothing was written.
#[derive(Debug)]
enum Unwritten {
    Short { needed: usize },
    NoMemory,
}

/// Writes what is printed of the input into the buffer, and tells how many bytes it is.
fn write(call: Call, input: &[u8], buffer: &mut [u8]) -> Result<usize, Unwritten> {
    // SAFETY: each pointer and length are those of a slice, and a `&mut` slice overlaps no other. The main thread has stack enough.
    let answer = unsafe {
        call(
            input.as_ptr(),
            input.len(),
            buffer.as_mut_ptr(),
            buffer.len(),
        )
    };
    match answer {
        i64::MIN => Err(Unwritten::NoMemory),
        0.. => Ok(answer as usize),
        _ => Err(Unwritten::Short {
            needed: answer.unsigned_abs() as usize,
        }),
    }
}

/// What is printed of the input.
fn printed(call: Call, input: &[u8]) -> Result<Vec<u8>, Unwritten> {
    let mut buffer = vec![0; 256];
    let length = match write(call, input, &mut buffer) {
        Err(Unwritten::Short { needed }) => {
            buffer.resize(needed, 0);
            write(call, input, &mut buffer)?
        }
        written => written?,
    };
    buffer.truncate(length);
    Ok(buffer)
}

fn main() -> io::Result<()> {
    let call: Call = match std::env::args().nth(1).as_deref() {
        Some("rehearse") => pallurge_rehearse,
        _ => pallurge_seat,
    };
    let mut input = Vec::new();
    // As much of the input as shows that it is too long.
    io::stdin().take(65_536 + 1).read_to_end(&mut input)?;
    let output =
        printed(call, &input).map_err(|unwritten| io::Error::other(format!("{unwritten:?}")))?;
    io::stdout().write_all(&output)
}

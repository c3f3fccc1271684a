//! A Rust program that runs a tray recording by the library: document 01's, over a RAM of zeros.
//! Prints what the run prints, then the two words that it has stored. docs/EMBEDDING.md says how it
//! is built.

use std::io::Write;

/// The library behind safe functions: Rust's slices bring what the boundary asks of pointers.
mod listrabor {
    pub const RAM_WORDS: usize = 16384;

    extern "C" {
        fn listrabor_room(bytes: usize) -> usize;
        fn listrabor_refusal(bytes: usize, words: usize, room: usize) -> u32;
        fn listrabor_run(
            recording: *const u8,
            bytes: usize,
            ram: *mut u16,
            words: usize,
            out: *mut u8,
            room: usize,
        ) -> usize;
    }

    /// How many bytes a buffer must have for the text of a recording of so many bytes.
    pub fn room(bytes: usize) -> usize {
        // SAFETY: it takes a number and touches no memory.
        unsafe { listrabor_room(bytes) }
    }

    /// Runs a recording over a RAM. Answers the text, which stands in the buffer, or the number by
    /// which the sizes are refused; RAM and buffer are then as they were.
    pub fn run<'a>(recording: &[u8], ram: &mut [u16], out: &'a mut [u8]) -> Result<&'a [u8], u32> {
        // SAFETY: a slice's pointer is not null and has its length behind it, also where it is
        // empty, and what is lent as `&mut` overlaps nothing.
        let count = unsafe {
            listrabor_run(
                recording.as_ptr(),
                recording.len(),
                ram.as_mut_ptr(),
                ram.len(),
                out.as_mut_ptr(),
                out.len(),
            )
        };
        if count == 0 {
            // SAFETY: it takes numbers and touches no memory.
            return Err(unsafe { listrabor_refusal(recording.len(), ram.len(), out.len()) });
        }
        Ok(&out[..count])
    }
}

const RECORDING: &[u8] = &[
    0x01, 0x00, 0x03, 0x05, 0x01, 0x00, // station 5, table block 1
    0x05, 0x00, 0x04, 0x00, 0x43, 0x40, 0x02, // the chain begins with block 2
    0x05, 0x00, 0x04, 0x00, 0xBF, 0x40, 0x03, // .. which links to block 3
    0x02, 0x00, 0x07, 0x06, 0x28, 0x62, 0x00, 0x00, 0x00, 0x28, // receive two words
    0x02, 0x00, 0x07, 0x0C, 0x11, 0x11, 0x00, 0x00, 0x00, 0x3C,
    0x02, 0x00, 0x07, 0x0C, 0x22, 0x22, 0x00, 0x00, 0x00, 0x50,
    0x03, 0x00, 0x05, 0x00, 0x00, 0x00, 0x00, 0x64, // silence ends the message
    0x04, 0x00, 0x00, // read the queue
];

fn main() -> std::io::Result<()> {
    let mut ram = vec![0; listrabor::RAM_WORDS];
    let mut out = vec![0; listrabor::room(RECORDING.len())];
    match listrabor::run(RECORDING, &mut ram, &mut out) {
        Ok(text) => std::io::stdout().write_all(text)?,
        Err(number) => {
            eprintln!("embed: refused by number {number}");
            std::process::exit(1);
        }
    }
    println!("block 2: {:04X} {:04X}", ram[64 * 2], ram[64 * 2 + 1]);
    Ok(())
}

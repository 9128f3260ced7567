//! Scripts played, and blocks shown.

use crate::{sys, Error};

/// What a text gives: its journal, and why it ends where a line is refused.
#[derive(Clone, Debug, PartialEq, Eq)]
pub struct Played {
    pub journal: String,
    pub refused: Option<String>,
}

type Play = unsafe extern "C" fn(
    *const u8, usize, *mut u8, usize, *mut usize, *mut u8, usize, *mut usize,
) -> u32;

fn play(call: Play, text: &str) -> Result<Played, Error> {
    let mut journal = vec![0; 1 << 16];
    let mut message = [0; 64];
    loop {
        let (mut size, mut told) = (0, 0);
        // SAFETY: as the head of lib.rs says; `call` is one of two exports.
        let answer = unsafe {
            call(
                text.as_ptr(), text.len(), journal.as_mut_ptr(), journal.len(), &mut size, message.as_mut_ptr(),
                message.len(), &mut told,
            )
        };
        match answer {
            sys::DONE | sys::REFUSED => {
                journal.truncate(size);
                let refused = String::from_utf8_lossy(&message[..told]).into_owned();
                return Ok(Played {
                    journal: String::from_utf8_lossy(&journal).into_owned(),
                    refused: (answer == sys::REFUSED).then_some(refused),
                });
            }
            sys::ROOM => journal.resize(size, 0),
            _ => return Err(Error::NoMemory),
        }
    }
}

/// The journal of a script, as `l2 run` writes it.
pub fn run(script: &str) -> Result<Played, Error> {
    play(sys::zubhanit_run, script)
}

/// The blocks of a text, as `l2 decode` shows them.
pub fn decode(blocks: &str) -> Result<Played, Error> {
    play(sys::zubhanit_decode, blocks)
}

use crate::fault::{Fault, Result};
use fdbrec_sys as sys;

/// The line of `fdbrec audit`, without its end: `audit ok` if the journals of a script (docs/AUDITING.md) are a run, else
/// where they are none.
pub fn audit(script: &str) -> Result<String> {
    // SAFETY: what is written to is this call's own, and the script is another one's.
    let line = text(|out, len, used| unsafe { sys::fdbrec_audit(script.as_ptr(), script.len(), out, len, used) })?;
    Ok(line.trim_end().to_owned())
}

/// The version of the C library, which may be another one than that of this crate.
pub fn version() -> Result<String> {
    // SAFETY: what is written to is this call's own.
    text(|out, len, used| unsafe { sys::fdbrec_version(out, len, used) })
}

/// The text of a call of no machine, which is made again with more room if the text does not fit.
fn text(call: impl Fn(*mut u8, usize, *mut usize) -> u32) -> Result<String> {
    let (mut room, mut used) = (vec![0; 256], 0);
    loop {
        match call(room.as_mut_ptr(), room.len(), &mut used) {
            sys::OK | sys::REFUSED => return Ok(String::from_utf8_lossy(&room[..used]).into_owned()),
            sys::SHORT => room.resize(used, 0),
            status => return Err(Fault::of(status)),
        }
    }
}

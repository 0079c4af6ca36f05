//! The writers of the archive. Guards around the output are the caller's.

use super::{Guarded, WORD};
use crate::model::writer::{FirmwareFields, VendorFields};
use thimmorel::ffi;

fn length_written(number: u32, written: Guarded<u32, 1>) -> Result<usize, u32> {
    let written = written.written_if(number == 0);
    written.map(|[length]| length as usize).ok_or(number)
}

pub fn write_vendor(fields: &VendorFields, out: &mut [u8]) -> Result<usize, u32> {
    let words = [
        fields.expiry,
        fields.major,
        fields.minor,
        fields.m,
        fields.n,
        fields.vtrust,
        fields.sigmask,
    ];
    let mut numbers = Guarded::holding(words, WORD);
    let mut written = Guarded::<u32, 1>::new(WORD);
    let number = unsafe {
        ffi::thimmorel_write_vendor(
            numbers.pointer(),
            fields.keys.as_ptr(),
            fields.keys.len() as u64,
            fields.string.as_ptr(),
            fields.string.len() as u64,
            fields.picture.as_ptr(),
            fields.picture.len() as u64,
            &fields.sig,
            out.as_mut_ptr(),
            out.len() as u64,
            written.pointer(),
        )
    };
    numbers.assert_holds(words);
    length_written(number, written)
}

pub fn write_firmware(fields: &FirmwareFields, code: &[u8], out: &mut [u8]) -> Result<usize, u32> {
    let words = [
        fields.v,
        fields.expiry,
        u32::from_le_bytes(fields.version),
        u32::from_le_bytes(fields.fix),
        fields.sigmask,
    ];
    let mut numbers = Guarded::holding(words, WORD);
    let mut written = Guarded::<u32, 1>::new(WORD);
    let number = unsafe {
        ffi::thimmorel_write_firmware(
            numbers.pointer(),
            code.as_ptr(),
            code.len() as u64,
            &fields.sig,
            out.as_mut_ptr(),
            out.len() as u64,
            written.pointer(),
        )
    };
    numbers.assert_holds(words);
    length_written(number, written)
}

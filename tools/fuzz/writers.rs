//! Target `writers`: fields for both headers, well-formed or not, then a list of changes to them.
//! Both writers are compared: answer, length written, and all bytes of the output and around it.
//! Where both headers are written, the file that they make is checked and its digests are asked.

use crate::check::compare_all;
use crate::draft::{inputs, Draft};
use crate::input::Input;
use crate::model::image::{Form, Inputs};
use crate::model::writer::{FirmwareFields, VendorFields};
use crate::written::{
    compare_firmware, compare_vendor, field, firmware_fields, firmware_of, picture_length, v,
    vendor_fields,
};

pub fn target(mut head: Input, mut list: Input) {
    let mut fields = match head.up_to(3) {
        0 => Fields::any(&mut head),
        _ => Fields::well_formed(&mut head),
    };
    while !list.has_ended() {
        fields.change(&mut list);
    }
    fields.compare(&mut head);
}

struct Fields {
    vendor: VendorFields,
    firmware: FirmwareFields,
    /// Whether the firmware writer is given the vendor header's own v.
    own_v: bool,
    code: Vec<u8>,
    inputs: Inputs,
}

impl Fields {
    fn well_formed(head: &mut Input) -> Fields {
        let draft = Draft::small(Form::File, head);
        Fields {
            firmware: firmware_of(&draft.bytes(), draft.v()),
            own_v: true,
            vendor: draft.fields,
            code: draft.code,
            inputs: draft.inputs,
        }
    }

    fn any(head: &mut Input) -> Fields {
        let length = head.up_to(600);
        Fields {
            vendor: vendor_fields(head),
            firmware: firmware_fields(head),
            own_v: head.one_in(2),
            code: head.bytes(length),
            inputs: inputs(head),
        }
    }

    /// One number or one length becomes any, or one at an edge.
    fn change(&mut self, list: &mut Input) {
        let (vendor, firmware) = (&mut self.vendor, &mut self.firmware);
        match list.up_to(15) {
            0 => vendor.m = number(list),
            1 => vendor.n = number(list),
            2 => {
                vendor.n = list.byte().into();
                vendor.keys = list.bytes(32 * vendor.n as usize);
            }
            3 => resize(&mut vendor.keys, list),
            4 => resize(&mut vendor.string, list),
            5 => resize(&mut vendor.picture, list),
            6 => {
                let length = picture_length(vendor.keys.len(), vendor.string.len(), list);
                vendor.picture = list.bytes(length);
            }
            7 => vendor.expiry = list.word(),
            8 => vendor.sigmask = number(list),
            9 => vendor.vtrust = field(65_535, list),
            10 => firmware.expiry = list.word(),
            11 => firmware.sigmask = number(list),
            12 => {
                firmware.v = v(list);
                self.own_v = list.one_in(2);
            }
            13 => resize(&mut self.code, list),
            14 if list.one_in(64) => {
                let length = code_length(firmware.v, list);
                self.code = list.bytes(length);
            }
            14 => vendor.minor = number(list),
            _ => (vendor.major, firmware.version[0]) = (number(list), list.byte()),
        }
    }

    fn compare(&mut self, head: &mut Input) {
        let vendor = compare_vendor(&self.vendor, head);
        if let (Ok(header), true) = (&vendor, self.own_v) {
            self.firmware.v = header.len() as u32;
        }
        let firmware = compare_firmware(&self.firmware, &self.code, head);
        if let (Ok(vendor), Ok(firmware)) = (vendor, firmware) {
            let file = [&vendor[..], &firmware, &self.code].concat();
            compare_all(Form::File, &file, file.len(), &self.inputs);
        }
    }
}

/// A byte, mostly, or a word that no byte holds.
fn number(list: &mut Input) -> u32 {
    let (byte, any) = (list.byte().into(), list.word());
    match list.one_in(4) {
        true => list.pick(&[256 + byte, byte << 8, any]),
        false => byte,
    }
}

/// Longer or shorter by little, or of any length up to 300.
fn resize(bytes: &mut Vec<u8>, list: &mut Input) {
    let length = bytes.len();
    let any = list.up_to(300);
    let shorter = length.saturating_sub(1);
    bytes.resize(list.pick(&[shorter, length + 1, length + 4, any]), 0x33);
}

/// Lengths of code around the ends of chunks 1 and 2 and the largest, for a v that may be wrong.
fn code_length(v: u32, list: &mut Input) -> usize {
    let end = list.pick(&[131_072, 262_144, 2_097_152]) - 1_024;
    let length = usize::saturating_sub(end, v as usize);
    list.pick(&[length.saturating_sub(4), length, length + 1, length + 4])
}

//! The library's calls, as `include/vogrilas.h` has them.

use crate::payment::Payment;
use std::ptr::null_mut;

/// A node, or none; its fields are the library's own.
#[repr(C)]
pub(crate) struct Handle {
    at: *mut u8,
    held: bool,
}

impl Handle {
    /// No node.
    pub(crate) fn none() -> Handle {
        Handle { at: null_mut(), held: false }
    }
}

/// Settings, or none; their fields are the library's own.
#[repr(C)]
pub(crate) struct SettingsHandle {
    at: *mut u8,
    held: bool,
}

impl SettingsHandle {
    /// No settings.
    pub(crate) fn none() -> SettingsHandle {
        SettingsHandle { at: null_mut(), held: false }
    }
}

/// The fill number of a reversal that leaves it out.
pub(crate) const NO_FILL: u8 = 255;

/// The header of a message that is made; a text ends at its first zero byte.
#[derive(Clone, Copy, Default)]
#[repr(C)]
pub(crate) struct RawHeader {
    pub(crate) bin: [u8; 7],
    pub(crate) pcn: [u8; 11],
    pub(crate) qualifier: [u8; 3],
    pub(crate) provider: [u8; 16],
    pub(crate) date: [u8; 9],
    pub(crate) vendor: [u8; 11],
}

/// A billing that is made.
#[derive(Clone, Copy, Default)]
#[repr(C)]
pub(crate) struct RawBilling {
    pub(crate) prescription: u64,
    pub(crate) quantity: u64,
    pub(crate) cost: u32,
    pub(crate) fee: u32,
    pub(crate) header: RawHeader,
    pub(crate) cardholder: [u8; 21],
    pub(crate) product: [u8; 20],
    pub(crate) fill_number: u8,
}

/// A reversal that is made.
#[derive(Clone, Copy, Default)]
#[repr(C)]
pub(crate) struct RawReversal {
    pub(crate) prescription: u64,
    pub(crate) header: RawHeader,
    pub(crate) product: [u8; 20],
    pub(crate) fill_number: u8,
}

macro_rules! offsets {
    ($told:ident $value:ident $name:literal $($field:ident)*) => {
        $told.push(($name.to_string(), std::mem::size_of_val(&$value)));
        $($told.push((
            format!(concat!($name, ".{}"), stringify!($field)),
            std::ptr::addr_of!($value.$field) as usize - std::ptr::addr_of!($value) as usize,
        ));)*
    };
}

/// Sizes and offsets of what C shares, by their names in the header, for the test that compares them.
pub fn layout() -> Vec<(String, usize)> {
    let mut told = vec![
        ("vogrilas_node".to_string(), std::mem::size_of::<Handle>()),
        ("vogrilas_settings".to_string(), std::mem::size_of::<SettingsHandle>()),
    ];
    let (payment, header) = (Payment::default(), RawHeader::default());
    let (billing, reversal) = (RawBilling::default(), RawReversal::default());
    offsets!(told payment "vogrilas_payment" serial prescription reversed_number cost fee copay total payer reversed_pharmacy bin pcn
        qualifier provider fill_number);
    offsets!(told header "vogrilas_header" bin pcn qualifier provider date vendor);
    offsets!(told billing "vogrilas_billing" prescription quantity cost fee header cardholder product fill_number);
    offsets!(told reversal "vogrilas_reversal" prescription header product fill_number);
    told
}

extern "C" {
    pub(crate) fn vogrilas_version() -> u32;
    pub(crate) fn vogrilas_open(
        node: *mut Handle,
        settings: *const u8,
        settings_size: usize,
        name: *const u8,
        name_size: usize,
        log: *const u8,
        log_size: usize,
        seed: *const u8,
        seed_size: usize,
        kept: &mut usize,
    ) -> u32;
    pub(crate) fn vogrilas_open_settings(
        settings: *mut SettingsHandle,
        text: *const u8,
        text_size: usize,
        seed: *const u8,
        seed_size: usize,
    ) -> u32;
    pub(crate) fn vogrilas_open_under(
        node: *mut Handle,
        settings: *mut SettingsHandle,
        name: *const u8,
        name_size: usize,
        log: *const u8,
        log_size: usize,
        kept: &mut usize,
    ) -> u32;
    pub(crate) fn vogrilas_close_settings(settings: *mut SettingsHandle);
    pub(crate) fn vogrilas_serve(node: *mut Handle, line: *const u8, line_size: usize) -> u32;
    pub(crate) fn vogrilas_submit(node: *mut Handle, request: *const u8, request_size: usize) -> u32;
    pub(crate) fn vogrilas_take(node: *mut Handle, from: *const u8, from_size: usize, packet: *const u8, packet_size: usize) -> u32;
    pub(crate) fn vogrilas_adjudicate(
        node: *mut Handle,
        from: *const u8,
        from_size: usize,
        packet: *const u8,
        packet_size: usize,
        advice: *const u8,
        advice_size: usize,
    ) -> u32;
    pub(crate) fn vogrilas_records(node: *mut Handle, buffer: *mut u8, room: usize, size: &mut usize) -> u32;
    pub(crate) fn vogrilas_records_after(
        node: *mut Handle,
        passed: usize,
        buffer: *mut u8,
        room: usize,
        size: &mut usize,
    ) -> u32;
    pub(crate) fn vogrilas_kept(node: *mut Handle, size: usize) -> u32;
    pub(crate) fn vogrilas_written(node: *mut Handle, buffer: *mut u8, room: usize, size: &mut usize) -> u32;
    pub(crate) fn vogrilas_calls(node: *mut Handle, calls: &mut u64) -> u32;
    pub(crate) fn vogrilas_count(node: *mut Handle, count: &mut u64) -> u32;
    pub(crate) fn vogrilas_most(node: *mut Handle, most: &mut u64) -> u32;
    pub(crate) fn vogrilas_request(node: *mut Handle, number: u64, buffer: *mut u8, room: usize, size: &mut usize) -> u32;
    pub(crate) fn vogrilas_answer(
        node: *mut Handle,
        pharmacy: u16,
        number: u64,
        buffer: *mut u8,
        room: usize,
        size: &mut usize,
    ) -> u32;
    pub(crate) fn vogrilas_heard(
        node: *mut Handle,
        pharmacy: u16,
        number: u64,
        buffer: *mut u8,
        room: usize,
        size: &mut usize,
    ) -> u32;
    pub(crate) fn vogrilas_payments(node: *mut Handle, payments: *mut Payment, room: usize, count: &mut usize) -> u32;
    pub(crate) fn vogrilas_clear(node: *mut Handle) -> u32;
    pub(crate) fn vogrilas_close(node: *mut Handle);
    pub(crate) fn vogrilas_print(bytes: *const u8, bytes_size: usize, buffer: *mut u8, room: usize, size: &mut usize) -> u32;
    pub(crate) fn vogrilas_unprint(text: *const u8, text_size: usize, buffer: *mut u8, room: usize, size: &mut usize) -> u32;
    pub(crate) fn vogrilas_make_billing(
        fields: *const RawBilling,
        buffer: *mut u8,
        room: usize,
        size: &mut usize,
        field: &mut u32,
    ) -> u32;
    pub(crate) fn vogrilas_make_reversal(
        fields: *const RawReversal,
        buffer: *mut u8,
        room: usize,
        size: &mut usize,
        field: &mut u32,
    ) -> u32;
    pub(crate) fn vogrilas_describe(
        message: *const u8,
        message_size: usize,
        json: u32,
        buffer: *mut u8,
        room: usize,
        size: &mut usize,
    ) -> u32;
    pub(crate) fn vogrilas_audit(
        settings: *const u8,
        settings_size: usize,
        logs: *const u8,
        logs_size: usize,
        sizes: *const usize,
        count: usize,
        json: u32,
        buffer: *mut u8,
        room: usize,
        size: &mut usize,
    ) -> u32;
}

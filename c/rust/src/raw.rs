//! The functions and structs of nr.h as C has them.

use crate::Entry;
use std::ffi::c_void;
use std::os::raw::c_char;

macro_rules! structs {
    ($($name:ident { $($member:ident: $kind:ty),* })*) => {
        $(
            #[repr(C)]
            #[derive(Default)]
            pub(crate) struct $name { $(pub(crate) $member: $kind),* }
        )*
    };
}

const _: () = assert!(std::mem::size_of::<Tx>() == 88 && std::mem::size_of::<Entry>() == 22);
const _: () = assert!(std::mem::size_of::<usize>() == std::mem::size_of::<*const c_void>());

// made by tests/generated from c/nr.h
structs! {
    Settings { rate2048: u32, lbrm: u32, reserved: [u32; 2] }
    Tx { rv: u32, g: u32, qm: u32, nl: u32, some: u64, blocks: [u64; 6], reserved: [u32; 4] }
    Plan { graph: u32, b: u32, l: u32, c: u32, kdash: u32, kb: u32, z: u32, set: u32, k: u32, n: u32, reserved: [u32; 2] }
    Report { one: u32, two: u32, place: u32, reserved: u32 }
    Buffer { ncb: u32, k0: u32, reserved: [u32; 2] }
    Match { graph: u32, z: u32, fillers: u32, ncb: u32, rv: u32, qm: u32, reserved: [u32; 2] }
}

#[rustfmt::skip]
extern "C" {
    pub(crate) fn nr_version() -> *const c_char;
    pub(crate) fn nr_table_check(text: *const u8, text_len: usize, out: *mut Report) -> u32;
    pub(crate) fn nr_table_entries(text: *const u8, text_len: usize, out: *mut Entry, out_len: usize, count: *mut usize)
        -> u32;
    pub(crate) fn nr_plan(rate2048: u32, a: u32, out: *mut Plan) -> u32;
    pub(crate) fn nr_lengths(rate2048: u32, a: u32, tx: *const Tx, out: *mut u32, out_len: usize) -> u32;
    pub(crate) fn nr_buffer(settings: *const Settings, a: u32, rv: u32, out: *mut Buffer) -> u32;
    pub(crate) fn nr_cut(rate2048: u32, block: *const u8, block_len: usize, r: u32, out: *mut u8, out_len: usize) ->
        u32;
    pub(crate) fn nr_encode(table: *const Entry, table_len: usize, graph: u32, z: u32, bits: *const u8, bits_len: usize,
        out: *mut u8, out_len: usize) -> u32;
    pub(crate) fn nr_codeword(table: *const Entry, table_len: usize, rate2048: u32, a: u32, bits: *const u8, bits_len:
        usize, out: *mut u8, out_len: usize) -> u32;
    pub(crate) fn nr_select(settings: *const Settings, a: u32, rv: u32, d: *const u8, d_len: usize, out: *mut u8,
        out_len: usize) -> u32;
    pub(crate) fn nr_interleave(qm: u32, bits: *const u8, bits_len: usize, out: *mut u8, out_len: usize) -> u32;
    pub(crate) fn nr_match(numbers: *const Match, d: *const u8, d_len: usize, out: *mut u8, out_len: usize) -> u32;
    pub(crate) fn nr_places(settings: *const Settings, a: u32, tx: *const Tx, out: *mut u32, out_len: usize) -> u32;
    pub(crate) fn nr_join(rate2048: u32, a: u32, bits: *const u8, bits_len: usize, passed: *mut u8, passed_len: usize,
        block_passed: *mut u32, block: *mut u8, block_len: usize) -> u32;
    pub(crate) fn nr_crc(poly: u32, octets: *const u8, octets_len: usize, out: *mut u32) -> u32;
    pub(crate) fn nr_send(table: *const Entry, table_len: usize, settings: *const Settings, block: *const u8, block_len:
        usize, tx: *const Tx, out: *mut u8, out_len: usize) -> u32;
    pub(crate) fn nr_send_packed(table: *const Entry, table_len: usize, settings: *const Settings, block: *const u8,
        block_len: usize, tx: *const Tx, out: *mut u8, out_len: usize) -> u32;
    pub(crate) fn nr_send_many(table: *const Entry, table_len: usize, settings: *const Settings, a: u32, txs: *const Tx,
        txs_len: usize, count: usize, blocks: *const u8, blocks_len: usize, out: *mut u8, out_len: usize) -> u32;
    pub(crate) fn nr_receive(table: *const Entry, table_len: usize, settings: *const Settings, a: u32, txs: *const Tx,
        txs_len: usize, heard: *const u8, heard_len: usize, outcomes: *mut u32, outcomes_len: usize, left: *mut u32,
        left_len: usize, block: *mut u8, block_len: usize) -> u32;
    pub(crate) fn nr_receive_packed(table: *const Entry, table_len: usize, settings: *const Settings, a: u32, txs:
        *const Tx, txs_len: usize, bits: *const u8, bits_len: usize, known: *const u8, known_len: usize, outcomes: *mut
        u32, outcomes_len: usize, left: *mut u32, left_len: usize, block: *mut u8, block_len: usize) -> u32;
    pub(crate) fn nr_receive_many(table: *const Entry, table_len: usize, settings: *const Settings, a: u32, txs: *const
        Tx, txs_len: usize, count: usize, heard: *const u8, heard_len: usize, outcomes: *mut u32, outcomes_len: usize,
        left: *mut u32, left_len: usize, blocks: *mut u8, blocks_len: usize) -> u32;
    pub(crate) fn nr_receiver_size(rate2048: u32, a: u32, out: *mut usize) -> u32;
    pub(crate) fn nr_receiver_start(table: *const Entry, table_len: usize, settings: *const Settings, a: u32, room: *mut
        u8, room_len: usize) -> u32;
    pub(crate) fn nr_receiver_take(table: *const Entry, table_len: usize, settings: *const Settings, a: u32, room: *mut
        u8, room_len: usize, tx: *const Tx, heard: *const u8, heard_len: usize, outcome: *mut u32, left: *mut u32,
        left_len: usize, block: *mut u8, block_len: usize) -> u32;
    pub(crate) fn nr_erase(seed: u64, threshold: u32, heard: *mut u8, heard_len: usize) -> u32;
    pub(crate) fn nr_simulate(table: *const Entry, table_len: usize, settings: *const Settings, a: u32, txs: *const Tx,
        txs_len: usize, thresholds: *const u32, thresholds_len: usize, seeds: *const u64, seeds_len: usize, delivered:
        *mut u32, delivered_len: usize, left: *mut u32, left_len: usize, erased: *mut u32, erased_len: usize) -> u32;
}

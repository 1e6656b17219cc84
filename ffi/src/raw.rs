//! The declarations of include/clevisroot.h, to which `tests/header.rs` holds them. Nothing checks
//! them against the library.

use crate::{Answer, Clip, Drawn, Label, Nearest, Point, Tallied, Tally};

extern "C" {
    pub fn clevisroot_check(
        coded: u8,
        bits: *const u8,
        bits_len: usize,
        gains: *const u16,
        gains_len: usize,
        tones: *const u16,
        tones_len: usize,
    ) -> Answer;

    pub fn clevisroot_reorder(
        coded: u8,
        bits: *const u8,
        bits_len: usize,
        gains: *const u16,
        gains_len: usize,
        tones: *const u16,
        tones_len: usize,
        tones_out: *mut u16,
        tones_out_len: usize,
        bits_out: *mut u8,
        bits_out_len: usize,
    ) -> Answer;

    pub fn clevisroot_encode(
        coded: u8,
        bits: *const u8,
        bits_len: usize,
        gains: *const u16,
        gains_len: usize,
        tones: *const u16,
        tones_len: usize,
        frame: *const u8,
        frame_len: usize,
        reg: u32,
        x: *mut i16,
        x_len: usize,
        y: *mut i16,
        y_len: usize,
    ) -> Answer;

    pub fn clevisroot_encode_at(
        coded: u8,
        bits: *const u8,
        bits_len: usize,
        gains: *const u16,
        gains_len: usize,
        tones: *const u16,
        tones_len: usize,
        frame: *const u8,
        frame_len: usize,
        start: u8,
        reg: u32,
        x: *mut i16,
        x_len: usize,
        y: *mut i16,
        y_len: usize,
    ) -> Answer;

    pub fn clevisroot_read(
        coded: u8,
        bits: *const u8,
        bits_len: usize,
        gains: *const u16,
        gains_len: usize,
        tones: *const u16,
        tones_len: usize,
        x: *const i16,
        x_len: usize,
        y: *const i16,
        y_len: usize,
        reg: u32,
        frame: *mut u8,
        frame_len: usize,
    ) -> Answer;

    pub fn clevisroot_read_at(
        coded: u8,
        bits: *const u8,
        bits_len: usize,
        gains: *const u16,
        gains_len: usize,
        tones: *const u16,
        tones_len: usize,
        x: *const i16,
        x_len: usize,
        y: *const i16,
        y_len: usize,
        reg: u32,
        frame: *mut u8,
        frame_len: usize,
        start: u8,
    ) -> Answer;

    pub fn clevisroot_read_nearest(
        coded: u8,
        bits: *const u8,
        bits_len: usize,
        gains: *const u16,
        gains_len: usize,
        tones: *const u16,
        tones_len: usize,
        x: *const i16,
        x_len: usize,
        y: *const i16,
        y_len: usize,
        reg: u32,
        frame: *mut u8,
        frame_len: usize,
        start: u8,
        work: *mut u8,
        work_len: usize,
    ) -> Nearest;

    pub fn clevisroot_clip_check(
        bits: *const u8,
        bits_len: usize,
        gains: *const u16,
        gains_len: usize,
        tones: *const u16,
        tones_len: usize,
        x: *const i16,
        x_len: usize,
        y: *const i16,
        y_len: usize,
        reg: u32,
    ) -> Clip;

    pub fn clevisroot_map_label(bits: u8, label: u32) -> Point;
    pub fn clevisroot_read_point(bits: u8, x: i16, y: i16) -> Label;
    pub fn clevisroot_plain_map_label(bits: u8, label: u32) -> Point;
    pub fn clevisroot_plain_read_point(bits: u8, x: i16, y: i16) -> Label;
    pub fn clevisroot_draw(reg: u32) -> Drawn;

    pub fn clevisroot_tally_new() -> Tally;

    pub fn clevisroot_tally_read(
        tally: Tally,
        sent: *const u8,
        sent_len: usize,
        read: *const u8,
        read_len: usize,
    ) -> Tallied;

    pub fn clevisroot_tally_refused(
        tally: Tally,
        sent: *const u8,
        sent_len: usize,
        refusal: u32,
    ) -> Tallied;
}

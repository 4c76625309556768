//! Whole frame headers scanned one after the other, with the slots that each leaves to the next.

use std::panic::{catch_unwind, AssertUnwindSafe};

use anyhow::Result;

use crate::bitio::BitReader;
use crate::seq_header::{parse_sequence_header, SequenceHeader};
use crate::uheader::{scan_uncompressed_header, Dpb, HeaderScan, RefSlot};

/// For each frame its values, `no {text}` or `panic`; then the slots. Only a sequence payload that cannot be read refuses
/// the request: the scan's own refusals of a header, like all others, are each frame's.
pub fn scan(seq: &[u8], frames: &[Vec<u8>]) -> Result<String> {
    let header = parse_sequence_header(seq)?;
    let mut slots = Dpb::default();
    let mut words: Vec<String> = Vec::new();
    for frame in frames {
        words.push(frame_text(frame, &header, &mut slots));
    }
    words.push("slots".into());
    words.extend(slots.slots.iter().map(slot_text));
    Ok(words.join(" "))
}

/// The Rust clears the slots at a shown key before it has read the rest: after a refusal they are put back.
fn frame_text(frame: &[u8], header: &SequenceHeader, slots: &mut Dpb) -> String {
    let before = slots.clone();
    let found = catch_unwind(AssertUnwindSafe(|| {
        scan_uncompressed_header(frame, header, slots)
    }));
    let refused = match found {
        Ok(Ok(values)) => return values_text(&values),
        Ok(Err(error)) => format!("no {{{error:#}}}"),
        Err(_) => "panic".into(),
    };
    *slots = before;
    refused
}

fn values_text(s: &HeaderScan) -> String {
    let mut values: Vec<i64> = vec![
        s.removal_insert_pos as i64,
        s.end_pos as i64,
        s.frame_type.into(),
        s.show_frame.into(),
        s.showable_frame.into(),
        s.refresh_frame_flags.into(),
        s.frame_width as i64,
        s.frame_height as i64,
        s.upscaled_width as i64,
        s.render_width as i64,
        s.render_height as i64,
        s.order_hint as i64,
        s.base_q_idx as i64,
    ];
    values.extend(s.deltas);
    colon_separated(&values)
}

fn slot_text(s: &RefSlot) -> String {
    colon_separated(&[
        s.order_hint,
        s.upscaled_width,
        s.frame_width,
        s.frame_height,
        s.render_width,
        s.render_height,
        s.is_key_frame.into(),
    ])
}

fn colon_separated<T: ToString>(items: &[T]) -> String {
    let words: Vec<String> = items.iter().map(T::to_string).collect();
    words.join(":")
}

/// The delta that the Rust is about to read, as AV1's signed number: su(1 + 6), two's complement (4.10.6). 0 where the bits
/// run out, which the Rust then sees for itself. Called from the copy of the Rust (quantizer.sed).
pub fn delta_ahead(r: &mut BitReader) -> i64 {
    let start = r.pos;
    let coded = matches!(r.f(1), Ok(1));
    let bits = if coded { r.f(7).unwrap_or(0) } else { 0 };
    r.pos = start;
    if bits < 64 {
        bits as i64
    } else {
        bits as i64 - 128
    }
}

// The Rust's containers, assembly and header scan for the C programs of bench/: a static library. A handle is freed by its own function.
pub mod assemble;
pub mod bitio;
pub mod container;
pub mod frame_header;
pub mod ivf;
pub mod obu;
pub mod quiet; // uheader, its trace! made empty by oracle/build
pub mod seq_header;
pub mod uheader;

use assemble::{AssembleOutput, AssembleParams, Segment};
use std::slice::from_raw_parts;

type Units = Vec<Vec<u8>>;

/// # Safety
/// `p` and `n` are a readable slice, or `n` is 0.
unsafe fn lent<'a, T>(p: *const T, n: usize) -> &'a [T] {
    if n == 0 {
        return &[];
    }
    from_raw_parts(p, n)
}

fn handle(found: anyhow::Result<Units>) -> *mut Units {
    match found {
        Ok(units) => Box::into_raw(Box::new(units)),
        Err(_) => std::ptr::null_mut(),
    }
}

#[no_mangle]
pub unsafe extern "C" fn rust_split_obu_stream(data: *const u8, len: usize) -> *mut Units {
    handle(container::split_obu_stream(lent(data, len)))
}

#[no_mangle]
pub unsafe extern "C" fn rust_split_annexb(data: *const u8, len: usize) -> *mut Units {
    handle(container::split_annexb(lent(data, len)))
}

#[no_mangle]
pub unsafe extern "C" fn rust_write_obu_stream(units: *const Units) -> *mut Vec<u8> {
    Box::into_raw(Box::new(container::write_obu_stream(&*units)))
}

#[no_mangle]
pub unsafe extern "C" fn rust_write_annexb(units: *const Units) -> *mut Vec<u8> {
    Box::into_raw(Box::new(container::write_annexb(&*units)))
}

/// The units that lie one behind the other in `bytes`, as the Rust holds them.
#[no_mangle]
pub unsafe extern "C" fn rust_units(bytes: *const u8, ends: *const u32, n: usize) -> *mut Units {
    let mut at = 0;
    let mut units = Units::with_capacity(n);
    for &end in lent(ends, n) {
        units.push(lent(bytes.add(at), end as usize - at).to_vec());
        at = end as usize;
    }
    Box::into_raw(Box::new(units))
}

/// Whether these are the units that lie one behind the other in `bytes`.
#[no_mangle]
pub unsafe extern "C" fn rust_units_are(
    units: *const Units,
    bytes: *const u8,
    ends: *const u32,
    n: usize,
) -> bool {
    let mut at = 0;
    (*units).len() == n
        && (*units).iter().zip(lent(ends, n)).all(|(unit, &end)| {
            let start = std::mem::replace(&mut at, end as usize);
            unit[..] == *lent(bytes.add(start), at - start)
        })
}

type Packets = Vec<(u64, Vec<u8>)>;

/// Packets that lie one behind the other in `bytes`, as the Rust takes them.
#[no_mangle]
pub unsafe extern "C" fn rust_packets(
    bytes: *const u8,
    ends: *const u32,
    times: *const u64,
    n: usize,
) -> *mut Packets {
    let units = Box::from_raw(rust_units(bytes, ends, n));
    let times = lent(times, n).iter().copied();
    Box::into_raw(Box::new(times.zip(*units).collect()))
}

/// Takes the packets for its own.
#[no_mangle]
pub unsafe extern "C" fn rust_merge_packets(packets: *mut Packets) -> *mut Packets {
    let packets = *Box::from_raw(packets);
    Box::into_raw(Box::new(container::merge_frameless_packets(packets)))
}

/// Whether these are the packets that lie one behind the other in `bytes`.
#[no_mangle]
pub unsafe extern "C" fn rust_packets_are(
    packets: *const Packets,
    bytes: *const u8,
    ends: *const u32,
    times: *const u64,
    n: usize,
) -> bool {
    let mut at = 0;
    (*packets).len() == n
        && (*packets)
            .iter()
            .zip(lent(ends, n).iter().zip(lent(times, n)))
            .all(|((time, packet), (&end, &other))| {
                let start = std::mem::replace(&mut at, end as usize);
                *time == other && packet[..] == *lent(bytes.add(start), at - start)
            })
}

#[no_mangle]
pub unsafe extern "C" fn rust_packets_free(packets: *mut Packets) {
    drop(Box::from_raw(packets));
}

#[no_mangle]
pub unsafe extern "C" fn rust_canonicalize_tu(unit: *const u8, len: usize) -> *mut Vec<u8> {
    Box::into_raw(Box::new(container::canonicalize_tu(lent(unit, len))))
}

#[no_mangle]
pub unsafe extern "C" fn rust_bytes_are(found: *const Vec<u8>, p: *const u8, len: usize) -> bool {
    (*found)[..] == *lent(p, len)
}

#[no_mangle]
pub unsafe extern "C" fn rust_units_free(units: *mut Units) {
    drop(Box::from_raw(units));
}

#[no_mangle]
pub unsafe extern "C" fn rust_bytes_free(bytes: *mut Vec<u8>) {
    drop(Box::from_raw(bytes));
}

/// `segments` has five numbers for each segment, as magbelo_assemble takes them.
#[no_mangle]
pub unsafe extern "C" fn rust_assemble(
    picture: *const u8,
    picture_len: usize,
    segments: *const u64,
    numbers: usize,
    gop_size: u64,
    fps: u32,
    fps_den: u32,
) -> *mut AssembleOutput {
    let picture = lent(picture, picture_len);
    let segments: Vec<Segment> = lent(segments, numbers)
        .chunks_exact(5)
        .map(|s| Segment {
            key_tu: &picture[s[0] as usize..s[1] as usize],
            golden_tu: &picture[s[2] as usize..s[3] as usize],
            frames: s[4],
        })
        .collect();
    let params = AssembleParams {
        fps,
        fps_den,
        total_frames: 0, // not read for several segments
        gop_size,
        decoder_model: false,
    };
    match assemble::assemble_multi(&segments, &params) {
        Ok(found) => Box::into_raw(Box::new(found)),
        Err(_) => std::ptr::null_mut(),
    }
}

/// What magbelo_assemble hands out.
#[repr(C)]
pub struct Listing {
    list: *const u32,
    units: usize,
    cues: *const u32,
    cue_count: usize,
    pictures: *const u8,
    ends: *const u32,
    shows: *const u8,
    segments: usize,
    header: *const u8,
    header_len: usize,
    golden_slot: u64,
}

/// Whether this is the same listing: every unit's bytes, the cues, the sequence header and the first slot.
#[no_mangle]
pub unsafe extern "C" fn rust_listing_is(
    found: *const AssembleOutput,
    ours: *const Listing,
) -> bool {
    let (found, ours) = (&*found, &*ours);
    let ends = lent(ours.ends, 2 * ours.segments);
    let unit = |entry: u32| {
        let (segment, kind) = (entry as usize / 4, entry as usize % 4);
        if kind == 2 {
            return lent(ours.shows.add(5 * segment), 5);
        }
        let at = 2 * segment + kind;
        let start = if at == 0 { 0 } else { ends[at - 1] as usize };
        lent(ours.pictures.add(start), ends[at] as usize - start)
    };
    found.tus.len() == ours.units
        && found
            .tus
            .iter()
            .zip(lent(ours.list, ours.units))
            .all(|(tu, &entry)| tu[..] == *unit(entry))
        && found.key_samples[..] == *lent(ours.cues, ours.cue_count)
        && found.seq_header_obu[..] == *lent(ours.header, ours.header_len)
        && u64::from(found.golden_slot) == ours.golden_slot
}

#[no_mangle]
pub unsafe extern "C" fn rust_assembly_free(found: *mut AssembleOutput) {
    drop(Box::from_raw(found));
}

/// A shown key frame resets the slots before it can be refused; no other frame changes them before its end.
fn is_shown_key(frame: &[u8]) -> bool {
    frame.first().is_some_and(|byte| byte >> 4 == 1)
}

/// The ends of all frame headers, in bits, summed: each scanned from the slots that those before it left, nothing for a
/// refused one, which leaves the slots as they were. They are kept aside for every frame, or where `$kept` says so.
macro_rules! scan {
    ($name:ident, $module:ident, $kept:expr) => {
        #[no_mangle]
        pub unsafe extern "C" fn $name(
            sequence: *const u8,
            sequence_len: usize,
            frames: *const u8,
            frames_len: usize,
            ends: *const u32,
            n: usize,
        ) -> u64 {
            let Ok(header) = seq_header::parse_sequence_header(lent(sequence, sequence_len)) else {
                return 0;
            };
            let frames = lent(frames, frames_len);
            let mut dpb = $module::Dpb::default();
            let (mut at, mut sum) = (0, 0u64);
            for &end in lent(ends, n) {
                let frame = frames.get(at..end as usize).unwrap_or(&[]);
                at = end as usize;
                let before = $kept(frame).then(|| dpb.clone());
                match $module::scan_uncompressed_header(frame, &header, &mut dpb) {
                    Ok(scan) => sum = sum.wrapping_add(scan.end_pos as u64),
                    Err(_) => dpb = before.unwrap_or(dpb),
                }
            }
            sum
        }
    };
}

scan!(rust_scan, uheader, |_: &[u8]| true);
scan!(rust_scan_quiet, quiet, |_: &[u8]| true);
scan!(rust_scan_quiet_few, quiet, is_shown_key);

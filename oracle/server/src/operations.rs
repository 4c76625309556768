//! The operations: each reads its arguments, calls the Rust under comparison and writes the values.

use anyhow::Result;

use crate::assemble::{assemble_multi, lowest_refreshed_slot, AssembleParams, Segment};
use crate::bitio::{leb128_encode, BitReader};
use crate::container;
use crate::frame_header::parse_frame_header_info;
use crate::obu::{parse_obus, Obu, ObuType};
use crate::scan::scan;
use crate::seq_header::{
    emit_sequence_header, parse_sequence_header, with_timing_info_rate, OperatingPoint,
    SequenceHeader,
};
use crate::text::{bytes, comma_separated, counted, hex, number};

/// None: the words are no request. Otherwise the values to print, or the Rust's refusal.
type Answer = Option<Result<String>>;

pub fn perform(operation: &str, args: &[&str]) -> Answer {
    match (operation, args) {
        ("bits", [data, pos, n]) => bits(&bytes(data)?, number(pos)?, number(n)?),
        ("uvlc", [data, pos]) => uvlc(&bytes(data)?, number(pos)?),
        ("leb", [data]) => leb(&bytes(data)?),
        ("lebput", [v]) => done(hex(&leb128_encode(number(v)?))),
        ("obus", [unit]) => obus(&bytes(unit)?),
        ("obuput", [kind, ext, payload]) => obuput(number(kind)?, extension(ext)?, bytes(payload)?),
        ("seq", [payload]) => Some(parse_sequence_header(&bytes(payload)?).map(|h| fields(&h))),
        ("support", [payload]) => Some(support(&bytes(payload)?)),
        ("emit", [payload]) => Some(emit(&bytes(payload)?)),
        ("timed", [payload, num, den]) => Some(timed(&bytes(payload)?, number(num)?, number(den)?)),
        ("frame", [seq, frame]) => Some(frame_header(&bytes(seq)?, &bytes(frame)?)),
        ("scan", [seq, frames @ ..]) => Some(scan(&bytes(seq)?, &byte_strings(frames)?)),
        ("stream", [data]) => Some(container::split_obu_stream(&bytes(data)?).map(units)),
        ("annexb", [data]) => Some(container::split_annexb(&bytes(data)?).map(units)),
        ("wstream", list) => done(hex(&container::write_obu_stream(&byte_strings(list)?))),
        ("wannexb", list) => done(hex(&container::write_annexb(&byte_strings(list)?))),
        ("packets", list) => packets(list),
        ("canon", [unit]) => done(hex(&container::canonicalize_tu(&bytes(unit)?))),
        ("assemble", [gop, fps, den, list @ ..]) => {
            assemble(number(gop)?, number(fps)?, number(den)?, list)
        }
        // The Rust has none for no flags: 8 stands for it.
        ("slot", [flags]) => done(lowest_refreshed_slot(number(flags)?).unwrap_or(8).to_string()),
        _ => None,
    }
}

fn done(values: String) -> Answer {
    Some(Ok(values))
}

fn reader_at(data: &[u8], pos: usize) -> BitReader<'_> {
    let mut reader = BitReader::new(data);
    reader.pos = pos;
    reader
}

fn bits(data: &[u8], pos: usize, n: usize) -> Answer {
    let mut reader = reader_at(data, pos);
    let value = reader.f(n);
    Some(value.map(|v| format!("{v} {}", reader.position())))
}

fn uvlc(data: &[u8], pos: usize) -> Answer {
    let mut reader = reader_at(data, pos);
    let value = reader.uvlc();
    Some(value.map(|v| format!("{v} {}", reader.position())))
}

fn leb(data: &[u8]) -> Answer {
    Some(BitReader::leb128(data).map(|(value, read)| format!("{value} {read}")))
}

fn obus(unit: &[u8]) -> Answer {
    Some(parse_obus(unit).map(|list| counted(list.iter().map(obu_text))))
}

fn obu_text(obu: &Obu) -> String {
    let ext = obu.extension.map_or("-".into(), |e| e.to_string());
    format!("{}:{ext}:{}", obu.obu_type as u8, hex(&obu.payload))
}

fn extension(word: &str) -> Option<Option<u8>> {
    match word {
        "-" => Some(None),
        _ => number(word).map(Some),
    }
}

fn obuput(kind: u8, extension: Option<u8>, payload: Vec<u8>) -> Answer {
    Some(ObuType::from_u8(kind).map(|obu_type| {
        let mut out = Vec::new();
        Obu {
            obu_type,
            extension,
            payload,
        }
        .write(&mut out);
        hex(&out)
    }))
}

fn support(payload: &[u8]) -> Result<String> {
    parse_sequence_header(payload)?.check_supported()?;
    Ok(String::new())
}

fn emit(payload: &[u8]) -> Result<String> {
    Ok(hex(&emit_sequence_header(&parse_sequence_header(payload)?)))
}

fn timed(payload: &[u8], num: u32, den: u32) -> Result<String> {
    let header = with_timing_info_rate(&parse_sequence_header(payload)?, num, den);
    Ok(hex(&emit_sequence_header(&header)))
}

fn frame_header(seq: &[u8], frame: &[u8]) -> Result<String> {
    let info = parse_frame_header_info(frame, &parse_sequence_header(seq)?)?;
    Ok(match (info.frame_to_show_map_idx, info.frame_type) {
        (Some(slot), _) => format!("1 {slot}"),
        (None, kind) => format!(
            "0 {} {} {} {} {}",
            kind.expect("a frame that is not shown again has a type"),
            u8::from(info.show_frame),
            u8::from(info.showable_frame),
            info.refresh_frame_flags,
            info.order_hint
        ),
    })
}

fn units(list: Vec<Vec<u8>>) -> String {
    counted(list.iter().map(|unit| hex(unit)))
}

fn byte_strings(words: &[&str]) -> Option<Vec<Vec<u8>>> {
    words.iter().map(|word| bytes(word)).collect()
}

fn packets(words: &[&str]) -> Answer {
    let pairs = words.chunks(2).map(|pair| match pair {
        [time, packet] => Some((number(time)?, bytes(packet)?)),
        _ => None,
    });
    let list: Vec<(u64, Vec<u8>)> = pairs.collect::<Option<_>>()?;
    let merged = container::merge_frameless_packets(list);
    done(counted(
        merged
            .iter()
            .map(|(time, packet)| format!("{time} {}", hex(packet))),
    ))
}

fn assemble(gop_size: u64, fps: u32, fps_den: u32, words: &[&str]) -> Answer {
    let triples = words.chunks(3).map(|triple| match triple {
        [key, golden, frames] => Some((bytes(key)?, bytes(golden)?, number(frames)?)),
        _ => None,
    });
    let list: Vec<(Vec<u8>, Vec<u8>, u64)> = triples.collect::<Option<_>>()?;
    Some(assembled(gop_size, fps, fps_den, &list))
}

fn assembled(
    gop_size: u64,
    fps: u32,
    fps_den: u32,
    list: &[(Vec<u8>, Vec<u8>, u64)],
) -> Result<String> {
    let segments: Vec<Segment> = list
        .iter()
        .map(|(key_tu, golden_tu, frames)| Segment {
            key_tu,
            golden_tu,
            frames: *frames,
        })
        .collect();
    // assemble_multi takes its total from the segments, not from total_frames.
    let params = AssembleParams {
        fps,
        fps_den,
        total_frames: 0,
        gop_size,
        decoder_model: false,
    };
    let out = assemble_multi(&segments, &params)?;
    let mut answer = format!(
        "{} {} {} {}",
        out.tus.len(),
        out.golden_slot,
        hex(&out.seq_header_obu),
        comma_separated(&out.key_samples)
    );
    for unit in &out.tus {
        answer.push(' ');
        answer.push_str(&hex(unit));
    }
    Ok(answer)
}

fn fields(h: &SequenceHeader) -> String {
    let mut list = opening_fields(h);
    list.extend(tool_fields(h));
    list.extend(colour_fields(h));
    list.extend(h.operating_points.iter().flat_map(point_fields));
    comma_separated(&list)
}

fn opening_fields(h: &SequenceHeader) -> Vec<u64> {
    vec![
        h.seq_profile.into(),
        h.still_picture.into(),
        h.reduced_still_picture_header.into(),
        h.timing_info_present.into(),
        h.num_units_in_display_tick.into(),
        h.time_scale.into(),
        h.equal_picture_interval.into(),
        h.num_ticks_per_picture_minus_1,
        h.decoder_model_info_present.into(),
        h.buffer_delay_length_minus_1.into(),
        h.num_units_in_decoding_tick.into(),
        h.buffer_removal_time_length_minus_1.into(),
        h.frame_presentation_time_length_minus_1.into(),
        h.initial_display_delay_present.into(),
        h.frame_width_bits_minus_1.into(),
        h.frame_height_bits_minus_1.into(),
        u64::from(h.max_frame_width) - 1,
        u64::from(h.max_frame_height) - 1,
        h.frame_id_numbers_present.into(),
        h.delta_frame_id_length_minus_2.into(),
        h.additional_frame_id_length_minus_1.into(),
    ]
}

fn tool_fields(h: &SequenceHeader) -> Vec<u64> {
    vec![
        h.use_128x128_superblock.into(),
        h.enable_filter_intra.into(),
        h.enable_intra_edge_filter.into(),
        h.enable_interintra_compound.into(),
        h.enable_masked_compound.into(),
        h.enable_warped_motion.into(),
        h.enable_dual_filter.into(),
        h.enable_order_hint.into(),
        h.enable_jnt_comp.into(),
        h.enable_ref_frame_mvs.into(),
        h.seq_choose_screen_content_tools.into(),
        h.seq_force_screen_content_tools.into(),
        h.seq_choose_integer_mv.into(),
        h.seq_force_integer_mv.into(),
        h.order_hint_bits as u64,
        h.enable_superres.into(),
        h.enable_cdef.into(),
        h.enable_restoration.into(),
    ]
}

fn colour_fields(h: &SequenceHeader) -> Vec<u64> {
    vec![
        h.high_bitdepth.into(),
        h.twelve_bit.into(),
        h.mono_chrome.into(),
        h.color_description_present.into(),
        h.color_primaries.into(),
        h.transfer_characteristics.into(),
        h.matrix_coefficients.into(),
        h.color_range.map_or(2, u64::from),
        h.subsample_x.into(),
        h.subsample_y.into(),
        h.chroma_sample_position.into(),
        h.separate_uv_delta_q.into(),
        h.film_grain_params_present.into(),
    ]
}

fn point_fields(p: &OperatingPoint) -> Vec<u64> {
    vec![
        p.idc.into(),
        p.seq_level_idx.into(),
        p.seq_tier.into(),
        p.decoder_model_present.into(),
        p.decoder_buffer_delay,
        p.encoder_buffer_delay,
        p.low_delay_mode.into(),
        p.initial_display_delay_present.into(),
        p.initial_display_delay_minus_1.into(),
    ]
}

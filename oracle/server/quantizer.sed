# Applied by oracle/build to its copy of uheader.rs, for the server alone. The Rust reads the quantizer's numbers and hands
# none out: here HeaderScan gains them. Each delta is looked at just before the Rust reads it, as AV1's signed number
# (scan.rs), and goes where the Rust puts its own. What the Rust itself reads and how it judges lossless stay as they are.

# struct Ctx and its first values
s/^(    |        )delta_(q_[yuv]_[ad]c: (i64|0),)$/&\n\1signed_\2/
# quantization_params
s/^( *)c\.delta_(q_[yuv]_[ad]c) = read_delta_q\(r\)\?;$/\1c.signed_\2 = crate::scan::delta_ahead(r);\n&/
s/^( *)c\.delta_(q_v_[ad]c) = c\.delta_(q_u_[ad]c);$/&\n\1c.signed_\2 = c.signed_\3;/
# struct HeaderScan and its values; a slot's own order_hint stands further right
/^pub struct HeaderScan \{$/a\    pub base_q_idx: u64,\n    pub deltas: [i64; 5],
/^        order_hint: c\.order_hint,$/a\
        base_q_idx: c.base_q_idx,\
        deltas: [\
            c.signed_q_y_dc,\
            c.signed_q_u_dc,\
            c.signed_q_u_ac,\
            c.signed_q_v_dc,\
            c.signed_q_v_ac,\
        ],

"""Sequence and frame headers made bit by bit, by AV1 5.5 and 5.9.2 as the base follows them."""

SELECT = 2
SRGB = (1, 13, 0)
# One in 25 is above 2.
PROFILES = (0, 1, 2, 2) * 24 + (3, 4, 6, 7)
COLOURS = (SRGB, SRGB, (1, 13, 1), (1, 12, 0), (9, 13, 0), (2, 2, 2), (0, 0, 0), (255, 255, 255))


class Maker:
    """Puts fields one behind another and remembers them; a pinned field has the pinned value."""

    def __init__(self, rng, pinned):
        self.rng = rng
        self.pinned = pinned
        self.facts = {}
        self.texts = []

    def put(self, name, n, value=None):
        if value is None:
            value = extreme(self.rng, n)
        value = self.pinned.get(name, value)
        self.facts[name] = value
        if n:
            self.texts.append(f'{value:0{n}b}')
        return value

    def flag(self, name, chance=0.5):
        return self.put(name, 1, int(self.rng.random() < chance))

    def flags(self, *names):
        for name in names:
            self.flag(name)

    def uvlc(self, name):
        """Pinned by its count of leading zeros."""
        zeros = self.rng.choice((0, 0, 1, self.rng.randrange(4), self.rng.randrange(34), self.rng.randrange(30, 33)))
        zeros = self.pinned.get(name, zeros)
        self.texts.append('0' * zeros + '1')
        self.put('uvlc_suffix', zeros)

    def text(self):
        return ''.join(self.texts)


def extreme(rng, n):
    """A number of n bits: random, or now and then all zeros, all ones, or a single one."""
    draw = rng.randrange(8)
    if draw == 0 or n == 0:
        return 0
    if draw == 1:
        return 2 ** n - 1
    if draw == 2:
        return 1 << rng.randrange(n)
    return rng.getrandbits(n)


def bytes_of(text):
    """The bits, zeros behind them to the byte."""
    text += '0' * (-len(text) % 8)
    return int('0' + text, 2).to_bytes(len(text) // 8, 'big')


def closed(text):
    """With trailing bits."""
    return bytes_of(text + '1')


# Sequence headers.

def make_header(rng, **pinned):
    """The bits of a header, and the facts that frames under it depend on."""
    m = Maker(rng, pinned)
    m.put('seq_profile', 3, rng.choice(PROFILES))
    m.flag('still_picture', 0.2)
    m.facts.update(decoder_model_info_present=0, equal_picture_interval=0, models=0, order_hint_bits=0,
                   frame_id_numbers_present=0, screen_content=SELECT, integer_mv=SELECT)
    reduced = m.flag('reduced_still_picture_header', 0.12)
    if reduced:
        m.put('seq_level_idx', 5)
    else:
        put_timing(m)
        put_points(m)
    put_sizes(m, reduced)
    m.flags('use_128x128_superblock', 'enable_filter_intra', 'enable_intra_edge_filter')
    if not reduced:
        put_inter_tools(m)
    m.flags('enable_superres', 'enable_cdef', 'enable_restoration')
    put_colour(m)
    m.flag('film_grain_params_present', 0.3)
    return m.text(), m.facts


def put_timing(m):
    if not m.flag('timing_info_present', 0.6):
        return
    m.put('num_units_in_display_tick', 32)
    m.put('time_scale', 32)
    if m.flag('equal_picture_interval', 0.65):
        m.uvlc('ticks_zeros')
    if m.flag('decoder_model_info_present', 0.6):
        m.put('buffer_delay_length_minus_1', 5)
        m.put('num_units_in_decoding_tick', 32)
        m.put('buffer_removal_time_length_minus_1', 5)
        m.put('frame_presentation_time_length_minus_1', 5)


def put_points(m):
    delays = m.flag('initial_display_delay_present')
    few = m.rng.randrange(4) if m.rng.random() < 0.9 else m.rng.randrange(32)
    for _ in range(m.put('operating_points_cnt_minus_1', 5, few) + 1):
        m.put('idc', 12, m.rng.choice((0, None)))
        if m.put('seq_level_idx', 5, m.rng.choice((0, 7, 8, 31, None))) > 7:
            m.flag('seq_tier')
        if m.facts['decoder_model_info_present'] and m.flag('decoder_model_present'):
            m.facts['models'] += 1
            length = m.facts['buffer_delay_length_minus_1'] + 1
            m.put('decoder_buffer_delay', length)
            m.put('encoder_buffer_delay', length)
            m.flag('low_delay_mode')
        if delays and m.flag('point_display_delay_present'):
            m.put('initial_display_delay_minus_1', 4)


def put_sizes(m, reduced):
    width = m.put('frame_width_bits_minus_1', 4)
    height = m.put('frame_height_bits_minus_1', 4)
    m.put('max_frame_width_minus_1', width + 1)
    m.put('max_frame_height_minus_1', height + 1)
    if not reduced and m.flag('frame_id_numbers_present', 0.12):
        m.put('delta_frame_id_length_minus_2', 4)
        m.put('additional_frame_id_length_minus_1', 3)


def put_inter_tools(m):
    m.flags('enable_interintra_compound', 'enable_masked_compound', 'enable_warped_motion', 'enable_dual_filter')
    hints = m.flag('enable_order_hint')
    if hints:
        m.flags('enable_jnt_comp', 'enable_ref_frame_mvs')
    if not m.flag('seq_choose_screen_content_tools'):
        m.facts['screen_content'] = m.flag('seq_force_screen_content_tools')
    if m.facts['screen_content'] and not m.flag('seq_choose_integer_mv'):
        m.facts['integer_mv'] = m.flag('seq_force_integer_mv')
    if hints:
        m.facts['order_hint_bits'] = m.put('order_hint_bits_minus_1', 3) + 1


def put_colour(m):
    high = m.flag('high_bitdepth')
    twelve = m.facts['seq_profile'] == 2 and high and m.flag('twelve_bit', 0.7)
    mono = m.facts['seq_profile'] != 1 and m.flag('mono_chrome', 0.3)
    colour = None
    if m.flag('color_description_present'):
        colour = m.pinned.get('colour', m.rng.choice(COLOURS))
        for value in colour:
            m.put('colour_part', 8, value)
    if mono:
        m.flag('color_range')
    elif colour != SRGB:
        m.flag('color_range')
        put_subsampling(m, twelve)
    m.flag('separate_uv_delta_q')


def put_subsampling(m, twelve):
    both = m.facts['seq_profile'] not in (1, 2)
    if twelve:
        both = m.flag('subsample_x', 0.7) and m.flag('subsample_y')
    if both:
        m.put('chroma_sample_position', 2)


# Frame headers.

def make_frame(rng, facts, **pinned):
    """The bits of a frame header, up to the refresh flags, under a sequence header of these facts."""
    m = Maker(rng, pinned)
    if m.flag('show_existing_frame', 0.1):
        m.put('slot', 3)
        return m.text()
    kind = m.put('frame_type', 2)
    shown = m.flag('show_frame', 0.6)
    if not shown:
        m.flag('showable_frame')
    fills_all = kind == 3 or (kind == 0 and shown)
    resilient = fills_all or m.flag('error_resilient_mode')
    m.flag('disable_cdf_update')
    put_frame_tools(m, facts, kind)
    m.put('order_hint', facts['order_hint_bits'])
    if kind in (1, 3) and not resilient:
        m.put('primary_ref_frame', 3)
    if facts['decoder_model_info_present'] and m.flag('buffer_removal_time_present'):
        for _ in range(facts['models']):
            m.put('buffer_removal_time', facts['buffer_removal_time_length_minus_1'] + 1)
    if not fills_all:
        m.put('refresh_frame_flags', 8)
    return m.text()


def put_frame_tools(m, facts, kind):
    screen_content = facts['screen_content']
    if screen_content == SELECT:
        screen_content = m.flag('allow_screen_content_tools')
    if screen_content and facts['integer_mv'] == SELECT:
        m.flag('force_integer_mv')
    if kind != 3:
        m.flag('frame_size_override')

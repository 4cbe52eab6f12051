//! The sequence header (AV1 5.5), up to chroma_sample_position.

/// The nine fields that a descriptor and a sequence header both have, in descriptor order.
pub type Fields = [u8; 9];

/// "its content ends before AV1 5.5 has read or passed by chroma_sample_position"
#[derive(Clone, Copy, Debug, PartialEq, Eq)]
pub struct CutShort;

/// Bits of a content, from the highest of its first byte on.
struct Bits<'a> {
    content: &'a [u8],
    read: usize,
}

impl Bits<'_> {
    /// f(n) of AV1 4.10.2.
    fn f(&mut self, n: usize) -> Result<u64, CutShort> {
        let mut value = 0;
        for _ in 0..n {
            let byte = self.content.get(self.read / 8).ok_or(CutShort)?;
            value = value << 1 | u64::from(byte >> (7 - self.read % 8) & 1);
            self.read += 1;
        }
        Ok(value)
    }

    fn flag(&mut self) -> Result<bool, CutShort> {
        Ok(self.f(1)? == 1)
    }

    /// uvlc() of AV1 4.10.3, whose value makes no difference here.
    fn uvlc(&mut self) -> Result<(), CutShort> {
        let mut leading_zeros = 0;
        while !self.flag()? {
            leading_zeros += 1;
        }
        if leading_zeros < 32 {
            self.f(leading_zeros)?;
        }
        Ok(())
    }

    /// timing_info( ), 5.5.3.
    fn timing_info(&mut self) -> Result<(), CutShort> {
        let _num_units_in_display_tick = self.f(32)?;
        let _time_scale = self.f(32)?;
        let equal_picture_interval = self.flag()?;
        if equal_picture_interval {
            // num_ticks_per_picture_minus_1
            self.uvlc()?;
        }
        Ok(())
    }

    /// decoder_model_info( ), 5.5.4; answers buffer_delay_length_minus_1.
    fn decoder_model_info(&mut self) -> Result<u64, CutShort> {
        let buffer_delay_length_minus_1 = self.f(5)?;
        let _num_units_in_decoding_tick = self.f(32)?;
        let _buffer_removal_time_length_minus_1 = self.f(5)?;
        let _frame_presentation_time_length_minus_1 = self.f(5)?;
        Ok(buffer_delay_length_minus_1)
    }

    /// operating_parameters_info( ), 5.5.5.
    fn operating_parameters_info(&mut self, n: usize) -> Result<(), CutShort> {
        let _decoder_buffer_delay = self.f(n)?;
        let _encoder_buffer_delay = self.f(n)?;
        let _low_delay_mode_flag = self.f(1)?;
        Ok(())
    }
}

/// Level and tier of operating point 0.
struct Point {
    level: u64,
    tier: u64,
}

/// The operating points: from timing_info_present_flag to the last of them.
fn operating_points(bits: &mut Bits) -> Result<Point, CutShort> {
    let mut decoder_model = None;
    let timing_info_present = bits.flag()?;
    if timing_info_present {
        bits.timing_info()?;
        let decoder_model_info_present = bits.flag()?;
        if decoder_model_info_present {
            decoder_model = Some(bits.decoder_model_info()?);
        }
    }
    let initial_display_delay_present = bits.flag()?;
    let operating_points_cnt_minus_1 = bits.f(5)?;
    let mut points = Vec::new();
    for _ in 0..=operating_points_cnt_minus_1 {
        let _operating_point_idc = bits.f(12)?;
        let level = bits.f(5)?;
        let tier = if level > 7 { bits.f(1)? } else { 0 };
        points.push(Point { level, tier });
        if let Some(buffer_delay_length_minus_1) = decoder_model {
            let decoder_model_present_for_this_op = bits.flag()?;
            if decoder_model_present_for_this_op {
                bits.operating_parameters_info(buffer_delay_length_minus_1 as usize + 1)?;
            }
        }
        if initial_display_delay_present {
            let initial_display_delay_present_for_this_op = bits.flag()?;
            if initial_display_delay_present_for_this_op {
                let _initial_display_delay_minus_1 = bits.f(4)?;
            }
        }
    }
    Ok(points.remove(0))
}

/// From the frame's size to the tools before color_config( ).
fn sizes_and_tools(bits: &mut Bits, reduced: bool) -> Result<(), CutShort> {
    let frame_width_bits_minus_1 = bits.f(4)?;
    let frame_height_bits_minus_1 = bits.f(4)?;
    let _max_frame_width_minus_1 = bits.f(frame_width_bits_minus_1 as usize + 1)?;
    let _max_frame_height_minus_1 = bits.f(frame_height_bits_minus_1 as usize + 1)?;
    if !reduced {
        let frame_id_numbers_present = bits.flag()?;
        if frame_id_numbers_present {
            let _delta_frame_id_length_minus_2 = bits.f(4)?;
            let _additional_frame_id_length_minus_1 = bits.f(3)?;
        }
    }
    let _use_128x128_superblock = bits.f(1)?;
    let _enable_filter_intra = bits.f(1)?;
    let _enable_intra_edge_filter = bits.f(1)?;
    if !reduced {
        let _enable_interintra_compound = bits.f(1)?;
        let _enable_masked_compound = bits.f(1)?;
        let _enable_warped_motion = bits.f(1)?;
        let _enable_dual_filter = bits.f(1)?;
        let enable_order_hint = bits.flag()?;
        if enable_order_hint {
            let _enable_jnt_comp = bits.f(1)?;
            let _enable_ref_frame_mvs = bits.f(1)?;
        }
        let seq_choose_screen_content_tools = bits.flag()?;
        let seq_force_screen_content_tools = if seq_choose_screen_content_tools {
            2
        } else {
            bits.f(1)?
        };
        if seq_force_screen_content_tools > 0 {
            let seq_choose_integer_mv = bits.flag()?;
            if !seq_choose_integer_mv {
                let _seq_force_integer_mv = bits.f(1)?;
            }
        }
        if enable_order_hint {
            let _order_hint_bits_minus_1 = bits.f(3)?;
        }
    }
    let _enable_superres = bits.f(1)?;
    let _enable_cdef = bits.f(1)?;
    let _enable_restoration = bits.f(1)?;
    Ok(())
}

/// What color_config( ), 5.5.2, says; what is not coded has its inferred value, or 0 for twelve_bit
/// and chroma_sample_position.
#[derive(Default)]
struct Colour {
    high_bitdepth: u64,
    twelve_bit: u64,
    mono_chrome: u64,
    subsampling_x: u64,
    subsampling_y: u64,
    chroma_sample_position: u64,
}

/// CP_BT_709, TC_SRGB and MC_IDENTITY.
const SRGB: (u64, u64, u64) = (1, 13, 0);
/// CP_UNSPECIFIED, TC_UNSPECIFIED and MC_UNSPECIFIED.
const UNSPECIFIED: (u64, u64, u64) = (2, 2, 2);

fn color_config(bits: &mut Bits, seq_profile: u64) -> Result<Colour, CutShort> {
    let mut colour = Colour {
        high_bitdepth: bits.f(1)?,
        ..Colour::default()
    };
    if seq_profile == 2 && colour.high_bitdepth == 1 {
        colour.twelve_bit = bits.f(1)?;
    }
    // "twelve_bit ? 12 : 10", or 8 or 10; of profiles above 2 nothing is said.
    let bit_depth_is_12 = colour.twelve_bit == 1;
    if seq_profile != 1 {
        colour.mono_chrome = bits.f(1)?;
    }
    let color_description_present = bits.flag()?;
    let description = if color_description_present {
        (bits.f(8)?, bits.f(8)?, bits.f(8)?)
    } else {
        UNSPECIFIED
    };
    if colour.mono_chrome == 1 {
        let _color_range = bits.f(1)?;
        (colour.subsampling_x, colour.subsampling_y) = (1, 1);
        return Ok(colour);
    }
    if description == SRGB {
        return Ok(colour);
    }
    let _color_range = bits.f(1)?;
    if seq_profile == 0 {
        (colour.subsampling_x, colour.subsampling_y) = (1, 1);
    } else if seq_profile == 1 {
        (colour.subsampling_x, colour.subsampling_y) = (0, 0);
    } else if bit_depth_is_12 {
        colour.subsampling_x = bits.f(1)?;
        if colour.subsampling_x == 1 {
            colour.subsampling_y = bits.f(1)?;
        }
    } else {
        (colour.subsampling_x, colour.subsampling_y) = (1, 0);
    }
    if colour.subsampling_x == 1 && colour.subsampling_y == 1 {
        colour.chroma_sample_position = bits.f(2)?;
    }
    Ok(colour)
}

/// sequence_header_obu( ), 5.5.1: the nine fields of a content, "inferred values as 000 2.2.2 has
/// them", and level and tier of operating point 0.
pub fn read(content: &[u8]) -> Result<Fields, CutShort> {
    let mut bits = Bits { content, read: 0 };
    let seq_profile = bits.f(3)?;
    let _still_picture = bits.f(1)?;
    let reduced_still_picture_header = bits.flag()?;
    let point = if reduced_still_picture_header {
        Point {
            level: bits.f(5)?,
            tier: 0,
        }
    } else {
        operating_points(&mut bits)?
    };
    sizes_and_tools(&mut bits, reduced_still_picture_header)?;
    let colour = color_config(&mut bits, seq_profile)?;
    let fields = [
        seq_profile,
        point.level,
        point.tier,
        colour.high_bitdepth,
        colour.twelve_bit,
        colour.mono_chrome,
        colour.subsampling_x,
        colour.subsampling_y,
        colour.chroma_sample_position,
    ];
    Ok(fields.map(|field| field as u8))
}

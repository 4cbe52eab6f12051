//! Headers cut at every byte, and at every bit with each fill of the byte in which the cut lies.

use crate::helpers::obu::build;
use crate::helpers::segment::{Caller, refused_at};
use crate::helpers::sequence::{
    Expected, FEATURES, Header, Made, another, bytes_of, check, obu, packets, unit_of, video,
};
use crate::kit::{Definition, Random, Suite, labels};
use reference::comparison::Found;
use reference::compose::segment;

pub const SUITE: Definition = Definition {
    name: "sequence-cuts",
    labels: || {
        let mut list = labels(FEATURES);
        list.extend(labels(&[
            "43: cut short",
            "none found",
            "cut by whole bytes",
            "ends with the last bit needed",
            "one bit missing",
            "eight bits missing",
            "cut in the middle of a byte, zeros behind",
            "cut in the middle of a byte, ones behind",
            "more bytes behind",
            "cut, with a field that differs before",
            "whole, with a field that differs",
            "monochrome, cut before color_range",
            "monochrome, ends with color_range",
            "sRGB, ends with matrix_coefficients",
            "sRGB, cut inside matrix_coefficients",
            "4:2:0, cut inside chroma_sample_position",
            "4:4:4, cut before color_range",
            "4:2:2, cut before color_range",
            "42: reduced_still_picture_header, cut or not",
        ]));
        for place in 0..8 {
            list.push(format!("the need ends at bit {place} of a byte"));
        }
        list
    },
    run,
};

/// What lies at the cut, where it is a bit before the end of what is needed, or at that end.
fn place(made: &Made, missing: usize) -> Option<&'static str> {
    let has = |feature| made.features.contains(&feature);
    let colour = if has("monochrome") {
        "monochrome"
    } else if has("sRGB") {
        "sRGB"
    } else if made.fields[7] == 1 {
        "4:2:0"
    } else if made.fields[6] == 1 {
        "4:2:2"
    } else {
        "4:4:4"
    };
    match (colour, missing, has("twelve bits")) {
        ("monochrome", 1, _) => Some("monochrome, cut before color_range"),
        ("monochrome", 0, _) => Some("monochrome, ends with color_range"),
        ("sRGB", 0, _) => Some("sRGB, ends with matrix_coefficients"),
        ("sRGB", 1, _) => Some("sRGB, cut inside matrix_coefficients"),
        ("4:2:0", 1, _) => Some("4:2:0, cut inside chroma_sample_position"),
        ("4:4:4", 1, false) => Some("4:4:4, cut before color_range"),
        ("4:2:2", 1, false) => Some("4:2:2, cut before color_range"),
        _ => None,
    }
}

/// The first so many bytes of a content.
fn whole_bytes(suite: &mut Suite, caller: &mut Caller, random: &mut Random, made: &Made) {
    let content = made.content();
    let need_label = format!("the need ends at bit {} of a byte", made.need % 8);
    for count in 1..=content.len() {
        let have = 8 * count;
        let mut labels = vec!["cut by whole bytes", &need_label];
        let missing = made.need.saturating_sub(have);
        labels.push(match missing {
            0 if have == made.need => "ends with the last bit needed",
            1 => "one bit missing",
            8 => "eight bits missing",
            _ => "other bits missing",
        });
        if have <= made.need {
            labels.extend(place(made, missing));
        }
        let units = [unit_of(&[obu(random, &content[..count])])];
        let cut = have < made.need;
        let expected: Expected = cut.then_some((0, Found::CutShort));
        let agreeing = video(&made.fields, 0, None);
        check(suite, caller, Some(agreeing), &units, expected, &labels);
        let field = random.below(9);
        let other = video(&another(random, &made.fields, field), 0, None);
        let (expected, label) = match cut {
            true => (Found::CutShort, "cut, with a field that differs before"),
            false => (Found::Field(field), "whole, with a field that differs"),
        };
        let expected = Some((0, expected));
        check(suite, caller, Some(other), &units, expected, &[label]);
        check(suite, caller, None, &units, None, &["no descriptor"]);
    }
    let mut longer = content;
    for _ in 0..1 + random.below(5) {
        longer.push(random.next() as u8);
    }
    let units = [unit_of(&[obu(random, &longer)])];
    let agreeing = Some(video(&made.fields, 0, None));
    let labels = [&made.features[..], &["more bytes behind"]].concat();
    check(suite, caller, agreeing, &units, None, &labels);
}

/// The first so many bits, and the rest of their byte filled: what that says is not known from the
/// making, as the fill is read as if it were the header.
fn bits(suite: &mut Suite, caller: &mut Caller, random: &mut Random, made: &Made) {
    for count in 1..made.need {
        for (fill, label) in [
            (false, "cut in the middle of a byte, zeros behind"),
            (true, "cut in the middle of a byte, ones behind"),
        ] {
            let content = bytes_of(&made.bits[..count], fill);
            let units = [unit_of(&[obu(random, &content)])];
            let bytes = segment(&packets(Some(video(&made.fields, 0, None)), &units));
            caller.check_wide(suite, &bytes, &[label]);
        }
    }
}

fn run(suite: &mut Suite) {
    let mut caller = Caller::default();
    let mut random = Random::new(402);
    for round in 0..1500 {
        let made = Header::any(&mut random).make(&mut random);
        whole_bytes(suite, &mut caller, &mut random, &made);
        if round % 4 == 0 {
            bits(suite, &mut caller, &mut random, &made);
        }
        // A reduced still picture never comes to be compared.
        let mut header = Header::any(&mut random);
        header.reduced = true;
        let made = header.make(&mut random);
        let content = made.content();
        let count = 1 + random.below(content.len());
        let units = [unit_of(&[build(1, 0, None, 1, &content[..count])])];
        let bytes = segment(&packets(Some(video(&made.fields, 0, None)), &units));
        let labels = ["42: reduced_still_picture_header, cut or not"];
        caller.check_wide_as(suite, &bytes, &labels, |verdict| refused_at(verdict, 42, 3));
    }
}

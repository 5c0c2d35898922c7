//! Values and the places that they fit.

use crate::rig::{assembled, refusal};

/// A line with an expression as `?`, and the lowest and the highest value that fit, in units.
const PLACES: [(&str, i32, i32, i32); 24] = [
    ("\tandi\tr1\t?", 1, 0, 255),
    ("\taddi\tr1\t?", 1, -128, 127),
    ("\tmovi\tr1\t?", 1, -128, 127),
    ("\tlsli\tr1\t?", 1, 0, 15),
    ("\tlsri\tr1\t?", 1, 0, 15),
    ("\tasri\tr1\t?", 1, 0, 15),
    ("\tmulti\tr1\t?", 1, 0, 15),
    ("\tcmpeqi\tr1\t?", 1, -8, 7),
    ("\tcmplti\tr1\t?", 1, -8, 7),
    ("\tcmpgti\tr1\t?", 1, -8, 7),
    ("\taddif\tr1\t?", 1, -8, 7),
    ("\taddit\tr1\t?", 1, -8, 7),
    ("\tswint\t?", 1, 0, 15),
    ("\thalf\t?", 1, 0, 65_535),
    ("\tldr\tr1\t?\tr2", 4, 0, 15),
    ("\tstr\tr1\t?\tr2", 4, 0, 15),
    ("\tldrh\tr1\t?\tr2", 2, 0, 15),
    ("\tstrh\tr1\t?\tr2", 2, 0, 15),
    ("\tldrb\tr1\t?\tr2", 1, 0, 15),
    ("\tstrb\tr1\t?\tr2", 1, 0, 15),
    ("\tldrpc\tr1\t256+?", 4, 0, 255),
    ("\tsj\t256+?", 2, -512, 511),
    ("\tj\t256+?", 2, -33_554_432, 33_554_431),
    ("\tjl\t256+?", 2, -33_554_432, 33_554_431),
];

#[test]
fn values_that_do_not_fit_their_places_are_refused_with_35() {
    for (line, unit, lowest, highest) in PLACES {
        let at = |value: i64| refusal(&line.replace('?', &value.to_string()));
        let [unit, lowest, highest] = [unit, lowest, highest].map(i64::from);
        for units in [lowest, lowest + 1, (lowest + highest) / 2, highest - 1, highest] {
            assert_eq!(at(unit * units), 0, "{line:?}: {units}");
            for beside in 1..unit {
                assert_eq!(at(unit * units + beside), 35, "{line:?}: {units}, and {beside}");
                assert_eq!(at(unit * units - beside), 35, "{line:?}: {units}, less {beside}");
            }
        }
        for units in [lowest - 1, highest + 1, lowest - 2, highest + 2, 2 * highest + 2] {
            assert_eq!(at(unit * units), 35, "{line:?}: {units}");
        }
        // These have the low bits of a value that fits.
        for value in [i64::from(i32::MAX) - 65_535 - 255, -i64::from(i32::MAX) + 65_535] {
            assert_eq!(at(value), 35, "{line:?}: {value}");
        }
    }
}

/// The base is the jump's own address, wherever it is; targets past the image and below 0 are good.
#[test]
fn jumps_reach_from_their_own_address() {
    for start in [0_i64, 2, 4, 0x1000, 65_532] {
        for (name, size, highest) in [("sjf", 2, 511), ("sjt", 2, 511), ("sj", 2, 511)]
            .into_iter()
            .chain([("jf", 4, 33_554_431), ("jt", 4, 33_554_431), ("j", 4, 33_554_431)])
            .chain([("jl", 4, 33_554_431_i64)])
        {
            let at = |target: i64| {
                let text = format!("\t{name}\t{target}\n");
                assembled(&text, start as usize, start as usize + size)
            };
            for halves in [-highest - 1, -highest, -1, 0, 1, highest] {
                let bytes = at(start + 2 * halves).unwrap_or_default();
                let bits = bytes.iter().fold(0, |bits, &byte| bits << 8 | i64::from(byte));
                assert_eq!(bits & highest, halves & highest, "{name} from {start} by {halves}");
                assert_eq!(at(start + 2 * halves + 1), Err((1, 35)), "{name}, odd");
                assert_eq!(at(start + 2 * halves - 1), Err((1, 35)), "{name}, odd");
            }
            for halves in [-highest - 2, highest + 1, -2 * highest, 2 * highest] {
                assert_eq!(at(start + 2 * halves), Err((1, 35)), "{name} from {start} by {halves}");
            }
        }
    }
}

/// 0 to 255 words from the instruction's own address, aligned down to 4.
#[test]
fn ldrpc_reaches_from_its_own_address_aligned_down() {
    for (start, base) in [(0, 0), (2, 0), (4, 4), (6, 4), (0x102, 0x100), (65_534, 65_532)] {
        let at = |address: i32| assembled(&format!("\tldrpc\tr1\t{address}\n"), start, start + 2);
        for words in [0, 1, 15, 16, 254, 255] {
            let bits = (0x4010 | (words & 0xf0) << 4 | words & 0xf) as u16;
            assert_eq!(at(base + 4 * words), Ok(bits.to_be_bytes().to_vec()), "{start}, {words}");
            for beside in [-3, -2, -1, 1, 2, 3] {
                assert_eq!(at(base + 4 * words + beside), Err((1, 35)), "{start}, {words}");
            }
        }
        for words in [-2, -1, 256, 257, -256] {
            assert_eq!(at(base + 4 * words), Err((1, 35)), "{start}, {words}");
        }
    }
}

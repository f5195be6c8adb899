//! The reader of degrees: every kind of legend, every refusal in its order, and what Rust's own floats give, by bits.
use yalivucu::typed::{degrees, Legend, Reading, Refusal};

const NEXT_720: f32 = f32::from_bits(0x44340001);
const NEXT_8: f32 = f32::from_bits(0x41000001);
const SEEN: u32 = 0xffc81234; // red 200

fn bits(reading: Reading) -> [u32; 3] {
    [reading.predicted, reading.measured, reading.difference].map(f32::to_bits)
}

/// What is due at a red, by Rust's floats, which it never fuses.
fn due(legend: Legend, red: u8, measured: f32) -> [u32; 3] {
    let predicted = match legend {
        Legend::Level(degrees) => degrees,
        Legend::Bend { low, step, second } if red > 128 => (low + step * 128.0) + second * f32::from(red - 128),
        Legend::Line { low, step } | Legend::Bend { low, step, .. } => low + step * f32::from(red),
    };
    [predicted, measured, predicted - measured].map(f32::to_bits)
}

#[test]
fn readings_at_every_red() {
    let legends = [
        Legend::Level(-0.0),
        Legend::Level(720.0),
        Legend::Line { low: 0.1, step: 0.7 },
        Legend::Line {
            low: -720.0,
            step: -8.0,
        },
        Legend::Bend {
            low: 0.1,
            step: 0.1,
            second: -0.7,
        },
        Legend::Bend {
            low: 1.0e-45,
            step: -1.0e-39,
            second: 8.0,
        },
    ];
    for legend in legends {
        for red in 0..=255 {
            for measured in [0.0, -0.0, 0.3, 720.0, -720.0, 1.0e-45] {
                for digit in 0..5 {
                    let pixel = 0x01005678 | u32::from(red) << 16;
                    let reading = degrees(legend, digit, digit, pixel, measured).unwrap().unwrap();
                    assert_eq!(bits(reading), due(legend, red, measured), "{legend:?} at red {red}");
                }
            }
        }
    }
}

#[test]
fn refusals_in_their_order() {
    let good = Legend::Level(1.0);
    let bad = [
        Legend::Level(NEXT_720),
        Legend::Level(f32::NAN),
        Legend::Line {
            low: -NEXT_720,
            step: 0.0,
        },
        Legend::Line { low: 0.0, step: NEXT_8 },
        Legend::Bend {
            low: f32::INFINITY,
            step: 0.0,
            second: 0.0,
        },
        Legend::Bend {
            low: 0.0,
            step: -NEXT_8,
            second: 0.0,
        },
        Legend::Bend {
            low: 0.0,
            step: 0.0,
            second: f32::NEG_INFINITY,
        },
    ];
    for legend in bad {
        assert_eq!(
            degrees(legend, 5, 4, 0, f32::NAN),
            Err(Refusal::BadLegend),
            "{legend:?}"
        );
    }
    for (named, shown) in [(0, 1), (4, 5), (5, 5), (256, 0), (usize::MAX, usize::MAX)] {
        assert_eq!(degrees(good, named, shown, 0, f32::NAN), Err(Refusal::BadDigit));
    }
    for measured in [NEXT_720, -NEXT_720, f32::NAN, -f32::NAN, f32::INFINITY] {
        assert_eq!(degrees(good, 4, 4, 0, measured), Err(Refusal::BadMeasurement));
    }
    assert_eq!(degrees(good, 4, 4, 0x00ffffff, 1.0), Ok(None));
    assert!(degrees(good, 4, 4, SEEN, 1.0).unwrap().is_some());
    let numbers = [Refusal::BadLegend, Refusal::BadDigit, Refusal::BadMeasurement].map(Refusal::number);
    assert_eq!(numbers, [13, 14, 15]);
    assert_eq!(
        Refusal::BadDigit.to_string(),
        "Refusal 14: legend and picture do not name one digit."
    );
}

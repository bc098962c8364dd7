//! Figures as doubles.

use bounds::Figure;

fn figure(digits: u64, power: i32) -> Figure {
    Figure::new(digits, power).expect("a figure")
}

/// The doubles lie on their sides: the shortest digits that Rust prints for each are compared with the figure by known values.
#[test]
fn doubles() {
    let one = figure(100_000_000, -8);
    assert_eq!((one.below(), one.above()), (1.0, 1.0));
    let tenth = figure(100_000_000, -9);
    assert_eq!((tenth.below(), tenth.above()), (0.1f64.next_down(), 0.1));
    let third = figure(333_333_333, -9);
    assert_eq!(third.below().next_up(), third.above());
    let huge = figure(999_999_999, 400);
    assert_eq!((huge.below(), huge.above()), (f64::MAX, f64::INFINITY));
    let tiny = figure(100_000_000, -2_000);
    assert_eq!((tiny.below(), tiny.above()), (0.0, f64::from_bits(1)));
    assert_eq!((Figure::default().below(), Figure::default().above()), (0.0, 0.0));
    // the nearest double is always one of the two
    for power in -345..=305 {
        for digits in [100_000_000, 123_456_789, 271_828_183, 999_999_999] {
            let (below, above) = (figure(digits, power).below(), figure(digits, power).above());
            let nearest: f64 = format!("{digits}e{power}").parse().unwrap_or(f64::NAN);
            assert!(nearest == below || nearest == above, "{digits} {power}");
            assert!(below == above || below.next_up() == above, "{digits} {power}");
        }
    }
}

/// Figures that are no double and lie within 2^-84 of one, above it and below it; `tests/c/doubles.c` has more, and says how they were found.
#[test]
fn doubles_near() {
    let above: [(u64, i32, u64); 5] = [
        (175_150_874, -310, 0x014805c19e680456),
        (420_526_983, -50, 0x375771f62f7c536b),
        (989_648_089, -35, 0x3a8880a3d515e849),
        (371_790_617, -25, 0x3c856ea93d1afbb0),
        (245_540_327, 121, 0x5acc569e968e0944),
    ];
    for (digits, power, bits) in above {
        let (figure, x) = (figure(digits, power), f64::from_bits(bits));
        assert_eq!((figure.below(), figure.above()), (x, x.next_up()), "{digits} {power}");
    }
    let below: [(u64, i32, u64); 5] = [
        (179_941_541, -304, 0x02878947479f53ad),
        (971_212_611, -126, 0x27a397d3c9745d2f),
        (161_110_172, -32, 0x3aff29ca0ff893b1),
        (145_644_771, -14, 0x3eb86f653140a659),
        (784_853_891, 229, 0x715348e02b28315a),
    ];
    for (digits, power, bits) in below {
        let (figure, x) = (figure(digits, power), f64::from_bits(bits));
        assert_eq!((figure.below(), figure.above()), (x.next_down(), x), "{digits} {power}");
    }
}

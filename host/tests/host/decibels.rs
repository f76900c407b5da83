//! Decibels to a tenth, by cases worked out by hand.
use dimpstea::{decibels, raw, Layout, Refusal};

/// 10^q ≤ M^200 at powers of ten, and on both sides of entry 1 of the table.
#[test]
fn medians_and_their_tenths() {
    for (median, q) in [
        (1e-9, 0),
        (2e-9, 60),
        (1e-3, 1200),
        (1.0, 1800),
        (1.0115794549, 1800),
        (1.0115794551, 1801),
        (0.1011579459, 1600),
        (0.1011579461, 1601),
        (2.0, 1860),
    ] {
        assert_eq!(decibels(median), Ok(q), "{median}");
    }
}

#[test]
fn medians_26() {
    let above = f64::from_bits(2f64.to_bits() + 1);
    for median in [f64::NAN, f64::INFINITY, -1e-300, -1.0, above, 0.0, -0.0, 9.999999e-10, 5e-324] {
        let mut tenths = 7;
        assert_eq!(raw::decibels(median, &mut tenths), Err(Refusal::new(26)), "{median}");
        assert_eq!(tenths, 7, "{median}");
    }
}

/// A median of 0.1 is 20 dB; 500/4 has two carriers and peaks of 4.4 dB.
#[test]
fn the_layouts_terms() {
    let layout = Layout::choose(500, 4).expect("a PSK layout");
    let raw = 20.0 + 20.0 * 2f64.log10() - 20.91;
    assert!((layout.raw_snr_db(0.1).expect("an accepted median") - raw).abs() < 1e-9);
    assert!((layout.snr_db(0.1).expect("an accepted median") - (raw - 5.0)).abs() < 1e-9);
    assert_eq!(layout.snr_db(3.0), Err(Refusal::new(26)));
}

//! Marker tables drawn on board.
use dimpstea::{raw, rows, Complex, Layout, Receiver, Refusal, Tables};

fn phasors(layout: &Layout) -> Vec<Complex> {
    vec![Complex::ONE; layout.phasor_count()]
}

/// A receiver opens with every table that was drawn, so conditions 3 to 5 accept it.
#[test]
fn drawn_tables_open_a_receiver() {
    let book = rows::turn_book();
    let mut state = 0x05_0000;
    for (bandwidth, record) in Layout::ALL {
        let layout = Layout::choose(bandwidth, record).unwrap();
        for _ in 0..20 {
            let before = state;
            let tables = Tables::drawn(&layout, &mut state, 4096, phasors(&layout)).unwrap();
            assert!(state < 1 << 24 && state != before);
            assert!(Receiver::open(&layout, &tables, 0, &book).is_ok());
        }
    }
}

/// Each condition, in its order; a refusal leaves state and table as they were.
#[test]
fn refusals_1_2_29_11_30() {
    let met = |bandwidth, record, state: u32, limit, length| {
        let (mut after, mut out) = (state, vec![9; length]);
        let number = raw::draw_markers(bandwidth, record, &mut after, limit, &mut out).err().map_or(0, Refusal::number);
        assert!(number == 0 || (after == state && out == vec![9; length]));
        number
    };
    let whole = 2 * (18 + 393);
    assert_eq!(met(501, 4, 1 << 24, 0, 0), 1);
    assert_eq!(met(500, 7, 1 << 24, 0, 0), 2);
    assert_eq!(met(500, 4, 1 << 24, 100, 0), 29);
    assert_eq!(met(500, 4, u32::MAX, 100, whole), 29);
    assert_eq!(met(500, 4, 5, 0, whole), 29);
    assert_eq!(met(500, 4, 5, 4097, whole), 29);
    assert_eq!(met(500, 4, 5, 1, whole - 1), 11);
    assert_eq!(met(500, 4, 5, 1, whole + 1), 11);
    assert_eq!(met(500, 4, 5, 17, whole), 30);
    assert_eq!(met(500, 4, 5, 4096, whole), 0);
}

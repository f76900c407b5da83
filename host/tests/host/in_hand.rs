//! Condition 22 at each of its edges.
use crate::signal::{tables, Frame, Random};
use dimpstea::{rows, Complex, Layout, Receiver, Tables};

fn noise(random: &mut Random, len: usize) -> Vec<Complex> {
    let mut part = || random.below(2001) as f64 - 1000.0;
    (0..len).map(|_| Complex::new(part(), part())).collect()
}

fn located(receiver: &Receiver, tables: &Tables, t0: u64) -> Option<u32> {
    receiver.locate(tables, t0).err().map(|r| r.number())
}

fn read(receiver: &Receiver, tables: &Tables, t0: u64, drift: &[Complex]) -> Option<u32> {
    let refusal = receiver.read(tables, t0, drift).err()?;
    assert_eq!(refusal.undivided, None);
    Some(refusal.refusal.number())
}

#[test]
fn a_frame_is_in_hand_from_end_to_end() {
    for (bandwidth, record) in Layout::ALL {
        let frame = Frame::new(bandwidth, record, 50);
        let (receiver, _) = frame.received(&frame.samples(), 3000);
        let numbers = &receiver.state().numbers;
        let (base, end) = (numbers[5], numbers[5] + numbers[6]);
        let last = end - 1 - 3 - 32 * (frame.layout.nsym as u64 - 1) - frame.layout.max_stagger;
        for (t0, answer) in
            [(0, Some(22)), (base + 34, Some(22)), (base + 35, None), (last, None), (last + 1, Some(22))]
        {
            assert_eq!(located(&receiver, &frame.tables, t0), answer, "{bandwidth}/{record} at {t0}");
            assert_eq!(read(&receiver, &frame.tables, t0, &[]), answer, "{bandwidth}/{record} at {t0}");
        }
        assert_eq!(located(&receiver, &frame.tables, u64::MAX), Some(22));
        assert_eq!(read(&receiver, &frame.tables, u64::MAX, &[]), Some(22));
    }
}

#[test]
fn nothing_is_in_hand_at_first() {
    let layout = Layout::choose(500, 4).unwrap();
    let tables = tables(&layout, &mut Random(51));
    let receiver = Receiver::open(&layout, &tables, 1 << 40, &rows::turn_book()).unwrap();
    for t0 in [0, 1 << 40, (1 << 40) + 51] {
        assert_eq!(located(&receiver, &tables, t0), Some(22));
    }
}

/// Samples are trimmed some feeds before the filtered track is: between the two, a frame can be read from the track,
/// but not with drift rows.
#[test]
fn drift_rows_need_the_samples() {
    let layout = Layout::choose(500, 6).unwrap();
    let random = &mut Random(52);
    let tables = tables(&layout, random);
    let book = rows::turn_book();
    let mut receiver = Receiver::open(&layout, &tables, 0, &book).unwrap();
    for piece in noise(random, 2 * layout.keep as usize + 8).chunks(4000) {
        receiver.feed(&tables, &book, piece).unwrap();
    }
    let numbers = &receiver.state().numbers;
    let (sample_base, filtered_base) = (numbers[3], numbers[5]);
    assert_eq!((sample_base, filtered_base), (layout.keep + 8, 64));
    let first = sample_base + layout.delay + 4;
    let drift = |t0: u64| {
        let rows = rows::drift(&layout, receiver.locate(&tables, t0).unwrap().t, 1.5);
        read(&receiver, &tables, t0, &rows)
    };
    assert_eq!((drift(first - 1), drift(first)), (Some(22), None));
    assert_eq!((drift(filtered_base + 35), read(&receiver, &tables, filtered_base + 35, &[])), (Some(22), None));
}

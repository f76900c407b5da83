//! Each refusal, met through the host's types; the raw calls where those keep the fault away.
use crate::signal::Frame;
use dimpstea::{
    flat, flat_mut, meter, payload_bits, raw, rows, Complex, Hold, Layout, Receiver, Refusal, Sending, Tables,
};

fn number<T>(answer: Result<T, Refusal>) -> u32 {
    answer.err().map_or(0, Refusal::number)
}

#[test]
fn layouts_1_and_2() {
    assert_eq!(number(Layout::choose(501, 4)), 1);
    assert_eq!(number(Layout::choose(500, 18)), 1);
    assert_eq!(number(Layout::choose(500, 0)), 1);
    assert_eq!(number(Layout::choose(500, 7)), 2);
    assert_eq!(number(Layout::choose(2300, 14)), 2);
}

/// Every call that takes tables meets 3 to 7 alike.
#[test]
fn tables_3_to_7() {
    let frame = Frame::new(500, 4, 70);
    let (receiver, detection) = frame.received(&frame.samples(), 4000);
    let book = rows::turn_book();
    let met = |spoil: fn(&mut Tables)| {
        let mut tables = frame.tables.clone();
        spoil(&mut tables);
        let numbers = [
            number(Sending::new(&frame.layout, &tables, 1, &frame.payload, &[0; 18])),
            number(Receiver::open(&frame.layout, &tables, 0, &book)),
            number(receiver.clone().feed(&tables, &book, &[])),
            number(receiver.locate(&tables, detection.position)),
            number(receiver.read(&tables, detection.position, &[]).map_err(Refusal::from)),
        ];
        assert_eq!(numbers, [numbers[0]; 5]);
        numbers[0]
    };
    assert_eq!(met(|_| ()), 0);
    assert_eq!(met(|tables| tables.markers.truncate(100)), 3);
    assert_eq!(met(|tables| tables.markers[0] = 4), 4);
    assert_eq!(met(|tables| tables.markers[0] = tables.markers[1]), 4);
    assert_eq!(met(|tables| tables.markers[36] = 1), 5);
    assert_eq!(met(|tables| tables.phasors.truncate(785)), 6);
    assert_eq!(met(|tables| tables.phasors[785] = Complex::new(1.01, 0.0)), 7);
    assert_eq!(met(|tables| tables.phasors[0].im = f64::NAN), 7);
}

#[test]
fn sendings_8_to_11() {
    let Frame { layout, tables, payload, .. } = Frame::new(500, 5, 71);
    let send = |frames, payload: &[u8], draws: &[u8]| number(Sending::new(&layout, &tables, frames, payload, draws));
    assert_eq!(send(1, &payload, &[0; 18]), 0);
    for frames in [0, 5, usize::MAX] {
        assert_eq!(send(frames, &payload, &[0; 18]), 8);
    }
    assert_eq!(send(1, &payload[1..], &[0; 18]), 9);
    assert_eq!(send(1, &[2; 1500], &[0; 18]), 9);
    assert_eq!(number(meter(&layout, &payload, &payload[1..])), 9);
    assert_eq!(send(1, &payload, &[0; 17]), 10);
    assert_eq!(send(1, &payload, &[4; 18]), 10);
    assert_eq!(number(payload_bits(&layout, &[0.0; 1499])), 11);
}

#[test]
fn audio_11_to_14() {
    let Frame { layout, sending, .. } = Frame::new(500, 4, 72);
    assert_eq!(number(sending.audio().next_window(&mut [0.0; 4096])), 0);
    assert_eq!(number(sending.audio().next_window(&mut [0.0; 4097])), 13);
    let audio = |row: &[Complex], place: u64, waves: &[f64], phases: &mut [f32], out: usize| {
        number(raw::carrier_audio(500, 4, 1, flat(row), place, 10, waves, phases, &mut vec![0.0; out]))
    };
    let row = sending.rows();
    assert_eq!(audio(row, 0, &[0.0; 40], &mut [0.0; 2], 10), 0);
    assert_eq!(audio(row, 0, &[0.0; 40], &mut [0.0; 2], 11), 11);
    assert_eq!(audio(&row[1..], 0, &[0.0; 40], &mut [0.0; 2], 10), 12);
    let end = layout.audio_len(1);
    assert_eq!(audio(row, end - 10, &[0.0; 40], &mut [0.0; 2], 10), 0);
    assert_eq!(audio(row, end - 9, &[0.0; 40], &mut [0.0; 2], 10), 13);
    assert_eq!(audio(row, 0, &[1.5; 40], &mut [0.0; 2], 10), 14);
    assert_eq!(audio(row, 0, &[0.0; 40], &mut [-1.0; 2], 10), 14);
    let mut loud = row.to_vec();
    flat_mut(&mut loud)[0] = 256.5;
    assert_eq!(audio(&loud, 0, &[0.0; 40], &mut [0.0; 2], 10), 12);
}

#[test]
fn openings_15_and_16() {
    let Frame { layout, tables, .. } = Frame::new(500, 6, 73);
    let book = rows::turn_book();
    assert_eq!(number(Receiver::open(&layout, &tables, 1 << 40, &book)), 0);
    assert_eq!(number(Receiver::open(&layout, &tables, (1 << 40) + 1, &book)), 15);
    assert_eq!(number(Receiver::open(&layout, &tables, 0, &book[1..])), 16);
    assert_eq!(number(Receiver::open(&layout, &tables, 0, &[Complex::new(1.5, 0.0); 3000])), 16);
}

/// After each of these the receiver goes on as if the feed had never been.
#[test]
fn feeds_16_to_20() {
    let Frame { layout, tables, .. } = Frame::new(500, 14, 74);
    let book = rows::turn_book();
    let mut receiver = Receiver::open(&layout, &tables, 9, &book).unwrap();
    receiver.feed(&tables, &book, &[Complex::ONE; 300]).unwrap();
    let before = receiver.clone();
    let loud = [Complex::ONE, Complex::new(0.0, 1_048_577.0)];
    assert_eq!(number(receiver.feed(&tables, &book[1..], &[])), 16);
    assert_eq!(number(receiver.feed(&tables, &book, &[Complex::ONE; 4001])), 18);
    assert_eq!(number(receiver.feed_at(&tables, &book, 308, &[Complex::ONE])), 19);
    assert_eq!(number(receiver.feed(&tables, &book, &loud)), 20);
    assert_eq!((receiver.state(), receiver.memory()), (before.state(), before.memory()));
    let mut short = Receiver::resume(&layout, *before.state(), before.memory()[1..].to_vec());
    assert_eq!(number(short.feed(&tables, &book, &[])), 17);
    assert_eq!(number(receiver.feed_at(&tables, &book, 309, &[Complex::ONE; 4000])), 0);
}

#[test]
fn half_a_sample_18() {
    let Frame { layout, tables, .. } = Frame::new(500, 4, 75);
    let book = rows::turn_book();
    let receiver = Receiver::open(&layout, &tables, 0, &book).unwrap();
    let (mut state, mut memory) = (*receiver.state(), receiver.memory().to_vec());
    let mut feed = |samples: &[f64]| {
        number(raw::feed(
            500,
            4,
            &tables.markers,
            flat(&tables.phasors),
            flat(&book),
            &mut state.numbers,
            &mut state.metric,
            &mut memory,
            0,
            samples,
        ))
    };
    assert_eq!((feed(&[0.0; 3]), feed(&[0.0; 4])), (18, 0));
}

#[test]
fn offers_21() {
    let mut hold = Hold::new(8, 100);
    assert_eq!(hold.offer(12, Some(30.0)), Ok(None));
    assert_eq!(number(hold.offer((1 << 48) + 1, Some(30.0))), 21);
    assert_eq!(number(hold.offer(14, Some(f64::NAN))), 21);
    assert_eq!(hold.offer(20, None), Ok(None));
    let released = hold.offer(22, Some(40.0)).unwrap().expect("a release");
    assert_eq!((released.position, released.metric), (12, 30.0));
}

//! A file that is cut anywhere: what is whole is read, and a line says that it was cut.
use crate::{err, folder, out, payload, typed};
use dimpstea::Layout;
use station::random::Random;
use std::fs;

#[test]
fn a_cut_file_reads_the_frames_that_it_still_has() {
    let folder = folder("cut");
    let layout = Layout::choose(2300, 5).unwrap();
    let sent = payload(3 * layout.payload, 7);
    fs::write(folder.join("p.txt"), &sent).unwrap();
    typed(&folder, "send -l 2300/5 p.txt -o whole.wav");
    let whole = fs::read(folder.join("whole.wav")).unwrap();
    let mut random = Random::new(8);
    let first_symbol = |frame: usize| 257 + layout.delay as usize + 32 * layout.nsym * frame;
    let last_symbol = |frame: usize| first_symbol(frame) + 32 * (layout.nsym - 1) + layout.max_stagger as usize;
    let ends: Vec<usize> = (0..3).flat_map(|i| [last_symbol(i) - 8, last_symbol(i) + 8]).collect();
    let at_ends = ends.into_iter().map(|sample| 44 + 2 * 16 * sample);
    for cut in (0..60).chain((0..40).map(|_| random.below(whole.len()))).chain(at_ends) {
        fs::write(folder.join("cut.wav"), &whole[..cut]).unwrap();
        let read = typed(&folder, "receive cut.wav -l 2300/5");
        let samples = cut.saturating_sub(44) / 32;
        let expected = (0..3).filter(|&frame| samples > last_symbol(frame)).count();
        let bits: String = out(&read).lines().map(|line| line.rsplit(' ').next().unwrap().to_string()).collect();
        assert_eq!(bits.len(), expected * layout.payload, "cut at {cut}: {}", err(&read));
        // A frame whose last pulses the cut goes through may lack the bits of its last symbol: two on each carrier.
        let through_last = (0..3).any(|frame| samples.abs_diff(last_symbol(frame)) <= layout.delay as usize);
        let wrong = bits.bytes().zip(sent.bytes()).filter(|(a, b)| a != b).count();
        assert!(wrong <= if through_last { 6 } else { 0 }, "cut at {cut}: {wrong} bits wrong");
        let expected_status = if cut < 44 { 3 } else { i32::from(expected == 0) };
        assert_eq!(read.status.code(), Some(expected_status), "cut at {cut}: {}", err(&read));
        let words = if cut == 0 {
            "cut.wav: it is empty; "
        } else if cut < 12 {
            "cut.wav, byte 0: it isn't a WAV file; "
        } else if cut < 44 {
            "cut.wav, byte "
        } else {
            "the recording was cut: "
        };
        assert!(err(&read).contains(words), "cut at {cut}: {}", err(&read));
    }
}

//! One step in each alphabet.
use dimpstea::{erased, nearest_point, raw, soft_step, Complex, Nearest, Refusal};

fn number<T>(answer: Result<T, Refusal>) -> u32 {
    answer.err().map_or(0, Refusal::number)
}

#[test]
fn a_tie_is_an_erasure() {
    let soft = soft_step(4, Complex::new(-1.0, 1.0), 1.0).unwrap();
    assert_eq!(soft.iter().map(|s| s.to_bits()).collect::<Vec<_>>(), [0, (-4.0f64).to_bits()]);
    assert!(erased(soft[0]) && !erased(soft[1]));
    // Nothing is nearer to the middle of the circle than anything else.
    let soft = soft_step(8, Complex::new(0.0, 0.0), 2.0).unwrap();
    assert!(soft.iter().all(|&s| erased(s)));
}

/// Each point read back: the sign bits are its label.
#[test]
fn the_signs_spell_the_nearest_label() {
    for (size, label, re, im) in [
        (2, 1, -1.0, 0.0),
        (4, 2, 0.0, -1.0),
        (8, 4, 0.7071067811865476, -0.7071067811865476),
        (16, 9, 0.7778175, -0.2592725),
        (32, 23, -1.0606602, 0.6363961),
        (32, 26, -0.6363961, -1.0606602),
    ] {
        let soft = soft_step(size, Complex::new(re, im), 0.5).unwrap();
        let read = soft.iter().fold(0, |label, s| 2 * label + usize::from(s.is_sign_negative()));
        assert_eq!((size, read), (size, label));
        assert!(!soft.iter().any(|&s| erased(s)));
    }
}

#[test]
fn sizes_and_ranges_31_11_32_33() {
    let step = Complex::new(0.3, 0.1);
    for size in [0, 1, 3, 6, 12, 33, 64, usize::MAX] {
        assert_eq!(number(raw::soft_step(size, Complex::new(f64::NAN, 0.0), 0.0, &mut [])), 31);
    }
    let mut out = [7.0; 6];
    for size in [2, 4, 8, 16, 32_usize] {
        let bits = size.ilog2() as usize;
        assert_eq!(number(raw::soft_step(size, Complex::new(f64::NAN, 0.0), 0.0, &mut out[..bits + 1])), 11);
        assert_eq!(number(raw::soft_step(size, Complex::new(0.0, -1048577.0), 0.0, &mut out[..bits])), 32);
        assert_eq!(number(raw::soft_step(size, step, 0.0009, &mut out[..bits])), 33);
        assert_eq!(number(raw::soft_step(size, step, f64::NAN, &mut out[..bits])), 33);
        assert_eq!(out, [7.0; 6]);
    }
    for nvar in [0.001, 2.0f64.powi(60)] {
        let soft = soft_step(16, Complex::new(-1048576.0, 1048576.0), nvar).unwrap();
        assert!(soft.len() == 4 && !soft.iter().any(|&s| erased(s)));
    }
}

#[test]
fn a_tie_has_an_equal_runner_up() {
    let tie = nearest_point(4, Complex::new(1.0, 1.0)).unwrap();
    assert_eq!(tie, Nearest { label: 0, distance: 1.0, runner_up: 1.0 });
    let point = nearest_point(16, Complex::new(-0.7778175, -0.7778175)).unwrap();
    assert_eq!((point.label, point.distance), (0, 0.0));
    assert!(point.runner_up > 0.268 && point.runner_up < 0.27);
    let far = nearest_point(32, Complex::new(1048576.0, -1048576.0)).unwrap();
    assert!(far.distance <= far.runner_up && far.runner_up.is_finite());
    assert_eq!(number(nearest_point(6, Complex::new(f64::NAN, 0.0))), 31);
    assert_eq!(number(nearest_point(8, Complex::new(f64::NAN, 0.0))), 32);
}

//! WAV files: every depth, chunks in any order, cut and damaged ones.
use station::random::Random;
use station::source::Source;
use station::wav::{Depth, Reader, Writer};
use std::fs;
use std::io::Cursor;
use std::path::{Path, PathBuf};

const DEPTHS: [Depth; 6] = [Depth::Pcm8, Depth::Pcm16, Depth::Pcm24, Depth::Pcm32, Depth::Float32, Depth::Float64];

fn scratch(name: &str) -> PathBuf {
    let folder = Path::new(env!("CARGO_TARGET_TMPDIR")).join("wav");
    fs::create_dir_all(&folder).unwrap();
    folder.join(name)
}

fn written(depth: Depth, rate: u32, samples: &[f64]) -> Vec<u8> {
    let path = scratch(&format!("{depth:?}-{rate}-{}.wav", samples.len()));
    let mut writer = Writer::create(&path, rate, depth, 0).unwrap();
    writer.write(samples).unwrap();
    writer.settle().unwrap();
    drop(writer);
    fs::read(&path).unwrap()
}

fn stream(bytes: &[u8]) -> Result<Reader, station::error::Error> {
    Reader::stream(Cursor::new(bytes.to_vec()), Path::new("a stream"))
}

fn file(name: &str, bytes: &[u8]) -> Result<Reader, station::error::Error> {
    let path = scratch(name);
    fs::write(&path, bytes).unwrap();
    Reader::open(&path)
}

fn everything(reader: &mut Reader, channel: usize) -> Vec<f64> {
    let mut samples = Vec::new();
    while reader.read(channel, 100, &mut samples).unwrap() > 0 {}
    samples
}

fn chunk(id: &[u8; 4], bytes: &[u8]) -> Vec<u8> {
    let mut chunk = id.to_vec();
    chunk.extend((bytes.len() as u32).to_le_bytes());
    chunk.extend(bytes);
    chunk.extend(vec![0; bytes.len() % 2]);
    chunk
}

fn wave(chunks: &[Vec<u8>]) -> Vec<u8> {
    let body = chunks.concat();
    let mut wave = b"RIFF".to_vec();
    wave.extend((body.len() as u32 + 4).to_le_bytes());
    wave.extend(b"WAVE");
    wave.extend(body);
    wave
}

fn fmt(kind: u16, channels: u16, rate: u32, bits: u16) -> Vec<u8> {
    let mut fmt = Vec::new();
    fmt.extend(kind.to_le_bytes());
    fmt.extend(channels.to_le_bytes());
    fmt.extend(rate.to_le_bytes());
    fmt.extend((rate * u32::from(channels * bits / 8)).to_le_bytes());
    fmt.extend((channels * bits / 8).to_le_bytes());
    fmt.extend(bits.to_le_bytes());
    fmt
}

#[test]
fn every_depth_reads_what_was_written() {
    let samples = [0.0, 0.5, -0.5, 0.25, -1.0, 0.990_234_375];
    for depth in DEPTHS {
        let bytes = written(depth, 44_100, &samples);
        let mut reader = stream(&bytes).unwrap();
        assert_eq!((reader.format().rate, reader.format().depth, reader.format().channels), (44_100, depth, 1));
        assert_eq!(reader.left(), Some(6));
        let read = everything(&mut reader, 0);
        assert!(reader.cut().is_none());
        let step = if depth == Depth::Pcm8 { 0.01 } else { 1e-4 };
        assert_eq!(read.len(), 6);
        assert!(read.iter().zip(samples).all(|(a, b)| (a - b).abs() < step), "{depth:?}: {read:?}");
    }
}

/// Sizes above full scale are clipped in PCM, and kept in floats.
#[test]
fn full_scale_is_one() {
    for (depth, expected) in [(Depth::Pcm16, 32767.0 / 32768.0), (Depth::Float32, 1.5)] {
        let read = everything(&mut stream(&written(depth, 48_000, &[1.5, -1.5])).unwrap(), 0);
        assert!((read[0] - expected).abs() < 1e-9 && read[1] <= -1.0, "{read:?}");
    }
}

/// A header that was never put right promises nothing; once it was, it promises what is there.
#[test]
fn a_settled_file_is_whole() {
    let path = scratch("settled.wav");
    let mut writer = Writer::create(&path, 48_000, Depth::Pcm16, 0).unwrap();
    for part in 1..4 {
        writer.write(&[0.25; 10]).unwrap();
        writer.settle().unwrap();
        assert_eq!(Reader::open(&path).unwrap().left(), Some(10 * part));
    }
    writer.write(&[0.25; 5]).unwrap();
    drop(writer);
    let mut reader = Reader::open(&path).unwrap();
    assert_eq!(everything(&mut reader, 0).len(), 30);
}

#[test]
fn chunks_come_in_any_order() {
    let (fmt, data) = (chunk(b"fmt ", &fmt(1, 1, 48_000, 16)), chunk(b"data", &[0, 64, 0, 192]));
    let (list, odd) = (chunk(b"LIST", &[7; 300]), chunk(b"note", &[1, 2, 3]));
    let orders = [
        vec![fmt.clone(), data.clone()],
        vec![list.clone(), fmt.clone(), odd.clone(), data.clone(), list.clone()],
        vec![odd.clone(), odd.clone(), fmt.clone(), list.clone(), data.clone()],
    ];
    for (i, order) in orders.iter().enumerate() {
        assert_eq!(everything(&mut stream(&wave(order)).unwrap(), 0), [0.5, -0.5], "order {i}");
        assert_eq!(everything(&mut file("order.wav", &wave(order)).unwrap(), 0), [0.5, -0.5], "order {i}");
    }
    let late = wave(&[odd, data, list, fmt]);
    assert_eq!(everything(&mut file("late.wav", &late).unwrap(), 0), [0.5, -0.5]);
    let error = stream(&late).err().unwrap().to_string();
    assert!(error.contains("a stream") && error.contains("save it to a file first"), "{error}");
}

#[test]
fn channels_are_told_apart_and_extensible_formats_read() {
    let mut extensible = fmt(0xfffe, 2, 48_000, 16);
    extensible.extend([22, 0, 16, 0, 3, 0, 0, 0, 1, 0, 0, 0, 0, 0, 16, 0, 128, 0, 0, 170, 0, 56, 155, 113]);
    for fmt in [fmt(1, 2, 48_000, 16), extensible] {
        let bytes = wave(&[chunk(b"fmt ", &fmt), chunk(b"data", &[0, 64, 0, 192, 0, 32, 0, 224])]);
        assert_eq!(everything(&mut stream(&bytes).unwrap(), 0), [0.5, 0.25]);
        assert_eq!(everything(&mut stream(&bytes).unwrap(), 1), [-0.5, -0.25]);
    }
}

/// A recorder that writes to a pipe doesn't know the length: its data runs to the end.
#[test]
fn a_stream_of_unknown_length_runs_to_its_end() {
    for unknown in [0, 0x7fff_f000, 0x8000_0000, u32::MAX] {
        let mut bytes = wave(&[chunk(b"fmt ", &fmt(1, 1, 48_000, 16)), chunk(b"data", &[])]);
        let at = bytes.len() - 4;
        bytes[at..].copy_from_slice(&u32::to_le_bytes(unknown));
        bytes.extend([0, 64, 0, 192]);
        let mut reader = stream(&bytes).unwrap();
        assert_eq!((reader.left(), everything(&mut reader, 0)), (None, vec![0.5, -0.5]));
        assert!(reader.cut().is_none());
    }
}

#[test]
fn a_long_file_has_its_length_in_ds64() {
    let mut ds64 = vec![0; 28];
    ds64[8..16].copy_from_slice(&4u64.to_le_bytes());
    let mut bytes = wave(&[chunk(b"ds64", &ds64), chunk(b"fmt ", &fmt(1, 1, 48_000, 16)), chunk(b"data", &[])]);
    bytes[..4].copy_from_slice(b"RF64");
    let at = bytes.len() - 4;
    bytes[at..].copy_from_slice(&u32::MAX.to_le_bytes());
    bytes.extend([0, 64, 0, 192, 9, 9]);
    assert_eq!(everything(&mut file("ds64.wav", &bytes).unwrap(), 0), [0.5, -0.5]);
}

#[test]
fn a_cut_file_is_used_and_named() {
    let bytes = written(Depth::Pcm16, 48_000, &[0.5; 50]);
    let mut reader = file("cut.wav", &bytes[..bytes.len() - 31]).unwrap();
    assert_eq!(everything(&mut reader, 0), [0.5; 34]);
    let cut = reader.cut().unwrap().to_string();
    assert!(cut.contains("cut.wav, byte 113: the recording was cut: 31 bytes"), "{cut}");
}

#[test]
fn faults_have_words() {
    let good = fmt(1, 1, 48_000, 16);
    let data = chunk(b"data", &[0; 8]);
    let cases = [
        (Vec::new(), "it is empty"),
        (b"RIFF".to_vec(), "it isn't a WAV file"),
        (b"ID3 some other file, long enough".to_vec(), "it isn't a WAV file"),
        (wave(&[]), "it ends before its chunk \"data\""),
        (wave(&[chunk(b"fmt ", &good)]), "it ends before its chunk \"data\""),
        (wave(&[chunk(b"fmt ", &good[..14]), data.clone()]), "has 14 bytes"),
        (wave(&[chunk(b"fmt ", &fmt(1, 0, 48_000, 16)), data.clone()]), "no channels"),
        (wave(&[chunk(b"fmt ", &fmt(85, 1, 48_000, 16)), data.clone()]), "format 85"),
        (wave(&[chunk(b"fmt ", &fmt(1, 1, 48_000, 12)), data]), "12 bits"),
    ];
    for (i, (bytes, words)) in cases.iter().enumerate() {
        let error = file(&format!("fault{i}.wav"), bytes).err().expect(words).to_string();
        assert!(error.contains(words) && error.contains(&format!("fault{i}.wav")), "{error}");
    }
}

/// Damages a file somehow: bytes changed, cut, doubled, taken out, or a length put wrong.
fn damage(bytes: &mut Vec<u8>, random: &mut Random) {
    for _ in 0..=random.below(4) {
        let len = bytes.len().max(1);
        let at = if random.below(2) == 0 { random.below(len.min(60)) } else { random.below(len) };
        match random.below(6) {
            _ if bytes.is_empty() => bytes.push(random.below(256) as u8),
            0 => bytes[at] = random.below(256) as u8,
            1 => bytes[at] ^= 1 << random.below(8),
            2 => bytes.truncate(at),
            3 => drop(bytes.drain(at..(at + random.below(40)).min(len))),
            4 => {
                let part = bytes[at..(at + random.below(60)).min(len)].to_vec();
                bytes.splice(at..at, part);
            }
            _ => {
                let number = [0, 1, 0x7fff_ffff, 0x8000_0000, 0xffff_fffe, u32::MAX][random.below(6)];
                let end = (at + 4).min(len);
                bytes[at..end].copy_from_slice(&number.to_le_bytes()[..end - at]);
            }
        }
    }
}

/// 10,000 damaged files go through the reader and the front end to the end: each is read or has a line of words.
#[test]
fn damaged_files_never_panic() {
    let mut random = Random::new(10_000);
    let (mut read, mut refused) = (0, 0);
    let path = scratch("damaged.wav");
    let samples: Vec<f64> = (0..480).map(|_| random.unit() - 0.5).collect();
    let originals: Vec<Vec<u8>> = DEPTHS.iter().map(|&depth| written(depth, 48_000, &samples)).collect();
    for case in 0..10_000 {
        let mut bytes = originals[case % 6].clone();
        damage(&mut bytes, &mut random);
        fs::write(&path, &bytes).unwrap();
        let outcome = Source::open(&path, case % 50 == 0, random.below(2)).and_then(|mut source| {
            let (mut piece, _) = (Vec::new(), source.left());
            while source.next(&mut piece)? {}
            Ok(source)
        });
        match outcome {
            Ok(_) => read += 1,
            Err(error) => {
                refused += 1;
                let words = error.to_string();
                assert!(words.contains("damaged.wav") && !words.contains('\n'), "case {case}: {words}");
            }
        }
        let _ = stream(&bytes).map(|mut reader| everything(&mut reader, 0));
    }
    assert!(read > 1000 && refused > 1000, "{read} read, {refused} refused");
    println!("{read} read, {refused} refused");
}

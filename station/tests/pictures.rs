//! The pictures of a recording, as a user asks for them.
use dimpstea::Layout;
use std::process::Command;

fn dimpstea(words: &[&str]) {
    let output = Command::new(env!("CARGO_BIN_EXE_dimpstea")).args(words).output().unwrap();
    assert!(output.status.success(), "{words:?}: {}", String::from_utf8_lossy(&output.stderr));
}

#[test]
fn a_recording_of_two_frames() {
    let folder = std::env::temp_dir().join(format!("dimpstea-pictures-{}", std::process::id()));
    std::fs::create_dir_all(&folder).unwrap();
    let name = |name: &str| folder.join(name).display().to_string();
    let layout = Layout::choose(500, 6).unwrap();
    std::fs::write(name("payload.txt"), "01".repeat(layout.payload)).unwrap();
    dimpstea(&["send", "--layout", "500/6", &name("payload.txt"), "-o", &name("out.wav")]);
    dimpstea(&["receive", &name("out.wav"), "--layout", "500/6", "--plot", &name("pictures")]);
    let files = std::fs::read_dir(folder.join("pictures")).unwrap().map(|file| file.unwrap().path());
    let mut files: Vec<(String, String)> = files
        .map(|file| (file.file_name().unwrap().to_string_lossy().into(), std::fs::read_to_string(&file).unwrap()))
        .collect();
    files.sort();
    let names: Vec<&str> = files.iter().map(|(name, _)| &name[..name.len().min(11)]).collect();
    assert_eq!(names, ["500-6-chi.s", "500-6-soft-", "500-6-soft-", "500-6-steps", "500-6-steps", "500-6-water"]);
    for (name, svg) in &files {
        assert!(svg.starts_with("<svg") && svg.trim_end().ends_with("</svg>"), "{name}");
    }
    // A circle for each detection and one for the legend; a dot for each step; an outline for each frame.
    assert_eq!(files[0].1.matches("<circle").count(), 3);
    assert_eq!(files[3].1.matches("<circle").count(), layout.carriers * (layout.nsym - 1));
    assert_eq!(files[5].1.matches("stroke-dasharray").count(), 2);
    for picture in [1, 2, 5] {
        assert!(files[picture].1.contains("data:image/png;base64,iVBORw0KGgo"));
    }
    std::fs::remove_dir_all(folder).unwrap();
}

//! The example in C, compiled against the header and run.
use std::path::{Path, PathBuf};
use std::process::Command;
use std::{env, fs};

#[test]
fn the_example_in_c_sends_and_receives() {
    let root = Path::new(env!("CARGO_MANIFEST_DIR")).join("..");
    let library = env::var_os("DIMPSTEA_LIB").map_or_else(|| root.join("target/staticlib"), PathBuf::from);
    let program = env::temp_dir().join(format!("dimpstea_send_and_receive_{}", std::process::id()));
    let compiled = Command::new("cc")
        .args(["-std=c11", "-Wall", "-Wextra", "-Wpedantic", "-Werror", "-O2", "-I"])
        .arg(root.join("include"))
        .arg(root.join("examples/send_and_receive.c"))
        .arg("-L")
        .arg(library)
        .args(["-lcalls_c", "-lmodem_c", "-lm", "-o"])
        .arg(&program)
        .output()
        .expect("a C compiler, cc");
    assert!(compiled.status.success(), "{}", String::from_utf8_lossy(&compiled.stderr));
    let ran = Command::new(&program).output();
    fs::remove_file(&program).ok();
    let ran = ran.expect("the example runs");
    assert!(ran.status.success(), "{}", String::from_utf8_lossy(&ran.stderr));
    assert_eq!(String::from_utf8_lossy(&ran.stdout), "detected at 956, read at 956, 0 of 748 payload bits differ\n");
}

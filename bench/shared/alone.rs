//! Runs this program once more, in a process of its own: no log finds the memory that another one left.

use std::process::Command;
use std::str::FromStr;

/// The numbers that the program prints with `one` and these words, one a line.
pub fn numbers<T: FromStr>(words: &[&dyn ToString]) -> Vec<T> {
    let program = std::env::current_exe().expect("the program");
    let words = words.iter().map(|word| word.to_string());
    let output = Command::new(program)
        .arg("one")
        .args(words)
        .output()
        .expect("a run");
    assert!(
        output.status.success(),
        "{}",
        String::from_utf8_lossy(&output.stderr)
    );
    let text = String::from_utf8(output.stdout).expect("numbers");
    let number = |line: &str| line.parse().ok().expect("a number");
    text.lines().map(number).collect()
}

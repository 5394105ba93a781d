//! What the comparing programs have in common: their arguments, what they keep of a difference, and how they
//! end.

use std::path::PathBuf;
use std::process::exit;

/// The arguments of a program that are not taken yet.
pub struct Arguments {
    usage: String,
    left: Vec<String>,
}

impl Arguments {
    /// All behind the program's name; the usage is what a wrong one is answered with.
    pub fn new(usage: String) -> Arguments {
        let left = std::env::args().skip(1).collect();
        Arguments { usage, left }
    }

    /// Takes an option and the value behind it; none if the option is not there.
    fn value(&mut self, option: &str) -> Option<String> {
        let place = self.left.iter().position(|argument| argument == option)?;
        assert!(place + 1 < self.left.len(), "{}", self.usage);
        self.left.drain(place..place + 2).last()
    }

    /// How many times the random cases are tried: `--scale N`, or once.
    pub fn scale(&mut self) -> u32 {
        let value = self.value("--scale");
        value.map_or(1, |scale| scale.parse().expect(&self.usage))
    }

    /// The program under comparison, a file; none for `self`, which puts this implementation in its place.
    pub fn program(&mut self, option: &str) -> Option<PathBuf> {
        let path = self.value(option).expect(&self.usage);
        (path != "self").then(|| PathBuf::from(path))
    }

    /// What is left, each of which is one of these names.
    pub fn names(self, names: &[&str]) -> Vec<String> {
        let known = |name: &String| names.contains(&&name[..]);
        assert!(self.left.iter().all(known), "{}", self.usage);
        self.left
    }
}

/// Keeps what shows a difference in a directory for temporary files, and names the file.
pub fn keep(what: &str, file: &str, bytes: &[u8]) {
    let path = std::env::temp_dir().join(format!("{}-{file}", std::process::id()));
    std::fs::write(&path, bytes).expect("the difference can be written");
    println!("  {what}: {}", path.display());
}

/// Ends a program in which nothing differs, by whether it met all that it promised.
pub fn end(sound: bool) -> ! {
    match sound {
        true => println!("all agree"),
        false => println!("coverage not met"),
    }
    exit(i32::from(!sound))
}

//! A temporary folder in which C is compiled and run.

use std::fs;
use std::path::{Path, PathBuf};
use std::process::{Command, Output};

/// A temporary folder, gone when the test ends, however it ends.
pub struct Folder(PathBuf);

impl Folder {
    pub fn new(name: &str) -> Folder {
        let path = std::env::temp_dir().join(format!("yokehour-{name}-{}", std::process::id()));
        fs::create_dir_all(&path).expect("a temporary folder");
        Folder(path)
    }

    /// Compiles what the words name to a program in the folder, with the header at hand and without a warning.
    pub fn compile(&self, compiler: &str, words: &[&str], program: &str) {
        let output = Command::new(compiler)
            .args(["-Wall", "-Wextra", "-Werror", "-Iinclude"])
            .args(words)
            .arg("-o")
            .arg(self.0.join(program))
            .current_dir(root())
            .output()
            .unwrap_or_else(|error| panic!("{compiler}: {error}"));
        assert!(output.status.success(), "{}", String::from_utf8_lossy(&output.stderr));
    }

    /// Runs a program of the folder there, and gives what it printed.
    pub fn run(&self, program: &str, words: &[&str]) -> String {
        let output = Command::new(self.0.join(program)).args(words).current_dir(&self.0).output();
        let Output { status, stdout, stderr } = output.unwrap_or_else(|error| panic!("{program}: {error}"));
        assert!(status.success(), "{program}: {status}, {}", String::from_utf8_lossy(&stderr));
        String::from_utf8(stdout).expect("prints text")
    }

    /// The length of a file in the folder.
    pub fn bytes_of(&self, file: &str) -> u64 {
        fs::metadata(self.0.join(file)).unwrap_or_else(|error| panic!("{file}: {error}")).len()
    }
}

impl Drop for Folder {
    fn drop(&mut self) {
        let _ = fs::remove_dir_all(&self.0);
    }
}

/// The repository.
pub fn root() -> PathBuf {
    Path::new(env!("CARGO_MANIFEST_DIR")).join("..")
}

/// The proved book, as words of [`Folder::compile`] name it.
pub const LIBRARY: &str = "target/staticlib/libwall_book.a";

/// Says whether a C compiler can be run here.
pub fn has_compiler(compiler: &str) -> bool {
    Command::new(compiler).arg("--version").output().is_ok()
}

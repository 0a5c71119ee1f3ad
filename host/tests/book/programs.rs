//! What the tests that run the programs share: a folder of their own, and `wallbook` in it.

use std::fs::File;
use std::os::unix::fs::{chown, MetadataExt, PermissionsExt};
use std::os::unix::process::CommandExt;
use std::path::{Path, PathBuf};
use std::process::{Command, Output, Stdio};

/// A user who is not root, and owns nothing here.
pub const SOMEBODY: u32 = 65_534;

/// A folder of the test's own, with the program run in it.
pub struct Folder(PathBuf);

impl Folder {
    pub fn new(test: &str) -> Folder {
        // Not below the package, which others may not be allowed to look into.
        let path = std::env::temp_dir().join(format!("wallbook-{test}-{}", std::process::id()));
        std::fs::create_dir_all(&path).expect("a folder for tests");
        Folder(path)
    }

    /// A folder with a pool `p` of four blocks that has key 7.
    pub fn with_pool(test: &str) -> Folder {
        let folder = Folder::new(test);
        assert_eq!(folder.status("prepare p 4 --book second"), Some(0));
        assert_eq!(folder.status("put p 7 100 --book second"), Some(0));
        folder
    }

    /// A file in it.
    pub fn path(&self, name: &str) -> PathBuf {
        self.0.join(name)
    }

    /// The bytes of a file in it.
    pub fn bytes(&self, name: &str) -> Vec<u8> {
        std::fs::read(self.path(name)).expect("is there")
    }

    /// What is in it.
    pub fn names(&self) -> Vec<String> {
        let entries = std::fs::read_dir(&self.0).expect("is there");
        let mut names: Vec<String> =
            entries.map(|entry| entry.expect("is read").file_name().to_string_lossy().into_owned()).collect();
        names.sort();
        names
    }

    /// Sets the mode of a file in it.
    pub fn set_mode(&self, name: &str, mode: u32) {
        std::fs::set_permissions(self.path(name), PermissionsExt::from_mode(mode)).expect("is set");
    }

    /// Says whether the tests run as root, who may do what others may not.
    pub fn of_root(&self) -> bool {
        std::fs::metadata(&self.0).expect("is there").uid() == 0
    }

    /// Gives a file to somebody else, where the tests run as root.
    pub fn give_away(&self, name: &str) {
        if self.of_root() {
            chown(self.path(name), Some(SOMEBODY), Some(SOMEBODY)).expect("is given");
        }
    }

    /// The program with the words of a line, to be run in the folder.
    pub fn command(&self, line: &str) -> Command {
        let mut program = Command::new(env!("CARGO_BIN_EXE_wallbook"));
        program.args(line.split_whitespace()).current_dir(&self.0).stdin(Stdio::null());
        program
    }

    /// Runs the program as somebody who is not root.
    pub fn as_somebody(&self, line: &str) -> Output {
        let mut program = self.command(line);
        if self.of_root() {
            program.uid(SOMEBODY).gid(SOMEBODY);
        }
        program.output().expect("runs")
    }

    /// Says whether somebody who is not root can run the program where it was built.
    pub fn is_open_to_somebody(&self) -> bool {
        let mut program = self.command("--version");
        !self.of_root() || program.uid(SOMEBODY).gid(SOMEBODY).output().is_ok()
    }

    /// Makes a device node that can be used, if that is allowed here.
    pub fn makes_node(&self, words: &[&str]) -> bool {
        let made = Command::new("mknod").args(words).current_dir(&self.0).stderr(Stdio::null()).status();
        made.is_ok_and(|status| status.success()) && File::open(self.path(words[0])).is_ok()
    }

    pub fn wallbook(&self, line: &str) -> Output {
        self.command(line).output().expect("runs")
    }

    /// The exit status of a line, and what it prints on standard output.
    pub fn says(&self, line: &str) -> (Option<i32>, String) {
        let output = self.wallbook(line);
        (output.status.code(), String::from_utf8(output.stdout).expect("is text"))
    }

    pub fn status(&self, line: &str) -> Option<i32> {
        self.wallbook(line).status.code()
    }

    /// The exit status of a line, and what it says on standard error.
    pub fn notes(&self, line: &str) -> (Option<i32>, String) {
        noted(self.wallbook(line))
    }
}

/// An exit status, and what was said on standard error.
pub fn noted(output: Output) -> (Option<i32>, String) {
    (output.status.code(), String::from_utf8(output.stderr).expect("is text"))
}

/// Runs another program, which must end well.
pub fn must(program: &str, words: &[&str], folder: &Path) {
    let status = Command::new(program).args(words).current_dir(folder).status().expect("runs");
    assert!(status.success(), "{program} {words:?}");
}

impl Drop for Folder {
    fn drop(&mut self) {
        let _ = std::fs::remove_dir_all(&self.0);
    }
}

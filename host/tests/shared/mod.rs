// The command `yukhtsami` as it is built, run on files and on standard input.
use std::{
    env, fs,
    io::Write,
    ops::Deref,
    path::{Path, PathBuf},
    process::{self, Command, Stdio},
};

pub const EQUAL: &str = "kind=equal\nleft=tamtplus(a,b)\nright=tamtplus(b,a)\n";

pub fn command() -> Command {
    Command::new(env!("CARGO_BIN_EXE_yukhtsami"))
}

/// The exit status, standard output and standard error.
pub type Ran = (i32, String, String);

/// Runs the command to its end with this standard input.
pub fn ran(mut command: Command, input: &[u8]) -> Ran {
    command.stdin(Stdio::piped());
    command.stdout(Stdio::piped()).stderr(Stdio::piped());
    let mut child = command.spawn().unwrap();
    // A command that reads no input may be gone by now.
    let _ = child.stdin.take().unwrap().write_all(input);
    let output = child.wait_with_output().unwrap();
    let text = |bytes| String::from_utf8(bytes).unwrap();
    let status = output.status.code().unwrap();
    (status, text(output.stdout), text(output.stderr))
}

/// A folder of this test's own, empty at first and gone at the end. It stands outside the repository,
/// in which `rt ci` refuses a file of Rattle that belongs to no crate: some tests write such files.
pub struct Folder(PathBuf);

impl Deref for Folder {
    type Target = Path;

    fn deref(&self) -> &Path {
        &self.0
    }
}

impl AsRef<Path> for Folder {
    fn as_ref(&self) -> &Path {
        self
    }
}

impl Drop for Folder {
    fn drop(&mut self) {
        let _ = fs::remove_dir_all(&self.0);
    }
}

pub fn folder(test: &str) -> Folder {
    let folder = env::temp_dir().join(format!("yukhtsami-{}-{test}", process::id()));
    let _ = fs::remove_dir_all(&folder);
    fs::create_dir_all(&folder).unwrap();
    Folder(folder.canonicalize().unwrap())
}

/// The command in a folder with these files.
pub fn run_in(test: &str, files: &[(&str, &[u8])], words: &[&str]) -> Ran {
    let folder = folder(test);
    for (name, bytes) in files {
        fs::write(folder.join(name), bytes).unwrap();
    }
    let mut command = command();
    command.current_dir(&folder).args(words);
    ran(command, b"")
}

pub fn answered(out: &str) -> Ran {
    (0, out.to_owned(), String::new())
}

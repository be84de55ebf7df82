//! A proved program, as a child process that reads its input.

use std::io::{self, Write};
use std::path::PathBuf;
use std::process::{Command, Stdio};

pub struct Proved {
    path: PathBuf,
}

impl Proved {
    /// The program that the variable names, or the one of that crate built
    /// beside the twin.
    pub fn find(variable: &str, name: &str) -> Option<Proved> {
        let crates = concat!(env!("CARGO_MANIFEST_DIR"), "/../crates");
        let beside = || PathBuf::from(format!("{crates}/{name}/out/{name}"));
        let path = std::env::var_os(variable).map_or_else(beside, PathBuf::from);
        path.is_file().then_some(Proved { path })
    }

    /// What the program prints; its status too, where that is not 0.
    pub fn play(&self, input: &[u8]) -> Vec<u8> {
        self.run(input).unwrap_or_else(|error| format!("(no child: {error})\n").into_bytes())
    }

    fn run(&self, input: &[u8]) -> io::Result<Vec<u8>> {
        let mut child = Command::new(&self.path)
            .stdin(Stdio::piped())
            .stdout(Stdio::piped())
            .stderr(Stdio::piped())
            .spawn()?;
        let mut pipe = child.stdin.take();
        let output = std::thread::scope(|scope| {
            scope.spawn(move || {
                if let Some(pipe) = &mut pipe {
                    // A child that ends early, or reads only a part, is told
                    // by its output.
                    let _ = pipe.write_all(input);
                }
                drop(pipe);
            });
            child.wait_with_output()
        })?;
        let mut printed = output.stdout;
        if !output.status.success() {
            printed.extend(format!("({})\n", output.status).as_bytes());
            printed.extend(&output.stderr);
        }
        Ok(printed)
    }
}

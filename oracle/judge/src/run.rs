//! Running the command that is compared.

use std::env::temp_dir;
use std::fs;
use std::io::{Error, Read, Write};
use std::os::unix::process::ExitStatusExt;
use std::path::PathBuf;
use std::process::{Child, Command, ExitStatus, Stdio, id};
use std::thread;

use crate::generate::files::worked_example;
use crate::records::file_of;

/// What a command left behind.
pub struct Output {
    pub bytes: Vec<u8>,
    /// How it ended, if not with status 0.
    pub trouble: Option<String>,
    /// Whether a signal ended it. Any other status is the command's own
    /// affair: what it has to be is nowhere said.
    pub crashed: bool,
}

/// Runs a shell command with this input; an error if it could not be run.
pub fn run(command: &str, input: &[u8]) -> Result<Output, String> {
    let trouble = |error| format!("could not run `{command}`: {error}");
    let mut child = Command::new("sh")
        .args(["-c", command])
        .stdin(Stdio::piped())
        .stdout(Stdio::piped())
        .spawn()
        .map_err(trouble)?;
    let mut stdin = child.stdin.take().expect("standard input was asked for");
    let output = thread::scope(|scope| {
        // Beside the reading, so that neither waits for the other. A command
        // may end before it has read everything: what it says then counts.
        scope.spawn(move || {
            let _ = stdin.write_all(input);
        });
        child.wait_with_output()
    });
    let output = output.map_err(trouble)?;
    // The shell's own words for a command that is not there.
    if let Some(code @ (126 | 127)) = output.status.code() {
        return Err(format!("could not run `{command}`: status {code}"));
    }
    Ok(Output::new(output.stdout, output.status))
}

impl Output {
    fn new(bytes: Vec<u8>, status: ExitStatus) -> Self {
        let code = status.code();
        Self {
            bytes,
            trouble: (code != Some(0)).then(|| status.to_string()),
            // The shell tells of a signal by a status from 128 on.
            crashed: code.is_none_or(|code| code >= 128),
        }
    }
}

/// How a command is run for many inputs.
#[derive(Copy, Clone)]
pub enum Way<'a> {
    /// Anew for each input.
    Each(&'a str),
    /// Started once, in a folder of its own with document 01's example, the
    /// file `sample`. For each byte on its standard input it answers the
    /// folder's file `in` by the file `out`, and then writes how the process
    /// that did so ended, in 4 bytes.
    Served(&'a str),
}

/// One of those that run side by side.
pub enum Runner<'a> {
    Each(&'a str),
    Served {
        command: &'a str,
        child: Child,
        folder: PathBuf,
    },
}

impl<'a> Runner<'a> {
    /// The runner of this number.
    pub fn start(way: Way<'a>, number: usize) -> Result<Self, String> {
        let command = match way {
            Way::Each(command) => return Ok(Self::Each(command)),
            Way::Served(command) => command,
        };
        let trouble = |error| format!("could not start `{command}`: {error}");
        let folder = temp_dir().join(format!("judge-{}-{number}", id()));
        fs::create_dir(&folder).map_err(trouble)?;
        let sample = file_of(&worked_example());
        fs::write(folder.join("sample"), sample).map_err(trouble)?;
        let child = Command::new("sh")
            .args(["-c", command])
            .current_dir(&folder)
            .stdin(Stdio::piped())
            .stdout(Stdio::piped())
            .spawn()
            .map_err(trouble)?;
        Ok(Self::Served {
            command,
            child,
            folder,
        })
    }

    pub fn run(&mut self, input: &[u8]) -> Result<Output, String> {
        match self {
            Self::Each(command) => run(command, input),
            Self::Served {
                command,
                child,
                folder,
            } => {
                let trouble = |error: Error| format!("`{command}` does not serve: {error}");
                let (to, from) = (child.stdin.as_mut(), child.stdout.as_mut());
                let to = to.expect("standard input was asked for");
                let from = from.expect("standard output was asked for");
                let (input_file, output_file) = (folder.join("in"), folder.join("out"));
                fs::write(input_file, input).map_err(trouble)?;
                to.write_all(b".").map_err(trouble)?;
                to.flush().map_err(trouble)?;
                let mut ended = [0; 4];
                from.read_exact(&mut ended).map_err(trouble)?;
                let status = ExitStatus::from_raw(i32::from_le_bytes(ended));
                if status.code() == Some(126) {
                    return Err(format!("`{command}` could not open its files"));
                }
                let bytes = fs::read(&output_file).map_err(trouble)?;
                // What the next run leaves is its own.
                fs::remove_file(output_file).map_err(trouble)?;
                Ok(Output::new(bytes, status))
            }
        }
    }
}

impl Drop for Runner<'_> {
    fn drop(&mut self) {
        if let Self::Served { child, folder, .. } = self {
            // Without more input it ends.
            drop(child.stdin.take());
            let _ = child.wait();
            let _ = fs::remove_dir_all(folder);
        }
    }
}

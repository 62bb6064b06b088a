//! The tool as a program: runs it in a folder and keeps what it printed.

use independent::rng::Rng;
use std::path::PathBuf;
use std::process::{Command, Output, Stdio};
use std::{env, fs};

pub struct Tool {
    pub path: PathBuf,
    pub folder: PathBuf,
}

/// A layout by its number, and the words that name it on a command line.
#[derive(Clone)]
pub struct Layout {
    pub number: u32,
    words: Vec<&'static str>,
}

impl Layout {
    /// The layout, named in one of the ways that the manual has; layout 0 may stay unnamed.
    pub fn named(rng: &mut Rng, number: u32) -> Layout {
        let ways: &[&[&str]] = match number {
            0 => &[&[], &["--layout", "0"], &["--layout=35"]],
            1 => &[
                &["--layout", "speeddos"],
                &["--layout=1"],
                &["--layout", "SpeedDOS"],
            ],
            2 => &[
                &["--layout", "2"],
                &["--layout=dolphin"],
                &["--layout", "Dolphin"],
            ],
            _ => unreachable!("three layouts"),
        };
        Layout {
            number,
            words: rng.pick(ways).to_vec(),
        }
    }
}

pub struct Said {
    pub command: String,
    pub status: i32,
    pub out: Vec<u8>,
    pub err: String,
}

impl Tool {
    /// TOOL FOLDER of the command line; the folder is made.
    pub fn of_arguments() -> Option<Tool> {
        let mut arguments = env::args_os().skip(1);
        let tool = Tool {
            path: arguments.next()?.into(),
            folder: arguments.next()?.into(),
        };
        fs::create_dir(&tool.folder).ok()?;
        Some(tool)
    }

    pub fn run(&self, arguments: &[&str]) -> Said {
        let Output {
            status,
            stdout,
            stderr,
        } = Command::new(&self.path)
            .args(arguments)
            .current_dir(&self.folder)
            .stdin(Stdio::null())
            .output()
            .expect("the tool runs");
        Said {
            command: arguments.join(" "),
            status: status.code().unwrap_or(-1),
            out: stdout,
            err: String::from_utf8_lossy(&stderr).into_owned(),
        }
    }

    /// Runs a command with the layout named behind its first word.
    pub fn run_in(&self, layout: &Layout, arguments: &[&str]) -> Said {
        self.run(&[&arguments[..1], &layout.words[..], &arguments[1..]].concat())
    }

    pub fn write(&self, name: &str, bytes: &[u8]) {
        fs::write(self.folder.join(name), bytes).expect("the folder can be written");
    }

    pub fn read(&self, name: &str) -> Option<Vec<u8>> {
        fs::read(self.folder.join(name)).ok()
    }

    pub fn remove(&self, name: &str) {
        let _ = fs::remove_file(self.folder.join(name));
    }

    /// No file but those of the test is left in the folder.
    pub fn nothing_hidden(&self, context: &str) {
        for entry in fs::read_dir(&self.folder).expect("the folder can be read") {
            let name = entry.expect("an entry").file_name();
            let name = name.to_string_lossy();
            assert!(!name.starts_with('.'), "{context}: {name} is left");
        }
    }
}

impl Said {
    /// The tool's status and words, for the message of a failure.
    pub fn shown(&self) -> String {
        let command: String = self.command.chars().take(300).collect();
        format!("d64 {command}\nstatus {}\n{}", self.status, self.err)
    }

    /// Fails unless the status is this one.
    pub fn status_is(&self, expected: u8, context: &str) {
        let seen = self.shown();
        assert!(
            self.status == i32::from(expected),
            "{context}: expected status {expected}, and saw:\n{seen}"
        );
    }

    /// Fails unless standard error is this line alone.
    pub fn says(&self, line: &str, context: &str) {
        let seen = self.shown();
        assert!(
            self.err == format!("{line}\n"),
            "{context}: expected the line\n{line}\nand saw:\n{seen}"
        );
    }
}

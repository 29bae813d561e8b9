//! Where everything is: the programs that are tried, the second program, the examples, and a folder
//! for the files of this run, which goes when the run ends.

use std::cell::Cell;
use std::fs;
use std::path::{Path, PathBuf};
use std::process::Command;

use fadurinko_second::rng::Rng;

const NAMES: [&str; 4] = ["word", "judge", "form", "compare"];

pub struct Setting {
    crates: PathBuf,
    pub second: PathBuf,
    examples: PathBuf,
    work: PathBuf,
    pub seed: u64,
    names_given: Cell<usize>,
}

impl Setting {
    pub fn new(crates: &str, second: &str, examples: &str, seed: u64) -> Result<Setting, String> {
        let crates = whole_path(crates)?;
        for name in NAMES {
            whole_path(program_in(&crates, name))?;
        }
        let (second, examples) = (whole_path(second)?, whole_path(examples)?);
        let work = std::env::temp_dir().join(format!("fadurinko-edges-{}", std::process::id()));
        fs::create_dir_all(&work).map_err(|error| format!("{}: {error}", work.display()))?;
        Ok(Setting {
            crates,
            second,
            examples,
            work,
            seed,
            names_given: Cell::new(0),
        })
    }

    /// Whether the program `record` is there; it is not before it is made.
    pub fn has_record(&self) -> bool {
        self.program("record").is_file()
    }

    pub fn program(&self, name: &str) -> PathBuf {
        program_in(&self.crates, name)
    }

    pub fn example(&self, name: &str) -> PathBuf {
        self.examples.join(name)
    }

    /// A path in the folder of this run that was not given before; there is nothing there.
    pub fn fresh(&self, name: &str) -> PathBuf {
        let number = self.names_given.get();
        self.names_given.set(number + 1);
        self.work.join(format!("{number:04}-{name}"))
    }

    pub fn file(&self, name: &str, content: &[u8]) -> PathBuf {
        let path = self.fresh(name);
        fs::write(&path, content).expect("a file of this run can be written");
        path
    }

    pub fn folder(&self, name: &str) -> PathBuf {
        let path = self.fresh(name);
        fs::create_dir(&path).expect("a folder of this run can be made");
        path
    }

    /// A named pipe. None is used twice, so that what was meant for a program that has ended never
    /// comes to another one.
    pub fn named_pipe(&self) -> PathBuf {
        let path = self.fresh("pipe");
        let made = Command::new("mkfifo").arg(&path).status();
        assert!(
            made.is_ok_and(|status| status.success()),
            "mkfifo makes a named pipe"
        );
        path
    }

    /// Random numbers of a group's own, so that a group's cases do not depend on those before it.
    pub fn rng(&self, group: &str) -> Rng {
        let salt = group.bytes().fold(0u64, |sum, byte| {
            sum.wrapping_mul(31).wrapping_add(u64::from(byte))
        });
        Rng::new(self.seed ^ salt)
    }
}

impl Drop for Setting {
    fn drop(&mut self) {
        let _ = fs::remove_dir_all(&self.work);
    }
}

/// Where a program of the folder of crates stands once it is proved and built.
fn program_in(crates: &Path, name: &str) -> PathBuf {
    crates.join(name).join("out").join(name)
}

/// The path from the root, so that it holds in every folder; an error if nothing is there.
fn whole_path(path: impl AsRef<Path>) -> Result<PathBuf, String> {
    let path = path.as_ref();
    fs::canonicalize(path).map_err(|error| format!("{}: {error}", path.display()))
}

//! Plants each fault of faults/*.fault in a copy of the repository. The proof has to refuse it, or else the hunt over the faulty drive has to find something
//! unexplained. Ends with status 1 if neither does. Names as arguments leave the other faults out.
use currycream_tests::fault::{self, Fault};
use std::fs;
use std::path::{Path, PathBuf};
use std::process::{Command, Output};

const HUNT_SECONDS: &str = "105";

/// The repository, its copy, and where the hunt is built.
struct CopiedRepository {
    rust: PathBuf,
    copy: PathBuf,
}

fn run(command: &mut Command) -> Result<Output, String> {
    command.output().map_err(|error| format!("{command:?}: {error}"))
}

/// All that a command printed.
fn text(output: &Output) -> String {
    [&output.stdout[..], &output.stderr[..]].iter().map(|bytes| String::from_utf8_lossy(bytes).into_owned()).collect()
}

impl CopiedRepository {
    /// Copies the repository, with what was proved, but neither its history nor this folder.
    fn new() -> Result<Self, String> {
        let rust = PathBuf::from(env!("CARGO_MANIFEST_DIR"));
        let root = rust.parent().ok_or("no repository")?;
        let copy = std::env::temp_dir().join("currycream-planted");
        let _ = fs::remove_dir_all(&copy);
        fs::create_dir_all(&copy).map_err(|error| error.to_string())?;
        for entry in fs::read_dir(root).map_err(|error| error.to_string())? {
            let path = entry.map_err(|error| error.to_string())?.path();
            if path.ends_with(".git") || path == rust {
                continue;
            }
            let copied = run(Command::new("cp").arg("-a").arg(&path).arg(&copy))?;
            if !copied.status.success() {
                return Err(text(&copied));
            }
        }
        Ok(CopiedRepository { rust, copy })
    }

    /// Changes the copy; what its files held before.
    fn apply(&self, fault: &Fault) -> Result<Vec<(PathBuf, String)>, String> {
        let mut before: Vec<(PathBuf, String)> = Vec::new();
        for edit in &fault.edits {
            let path = self.copy.join(&edit.file);
            let old = fs::read_to_string(&path).map_err(|error| format!("{}: {error}", edit.file))?;
            fs::write(&path, edit.apply(&old)?).map_err(|error| error.to_string())?;
            before.push((path, old));
        }
        Ok(before)
    }

    /// Proves and builds the library in the copy; who refused it, if somebody did.
    fn prove(&self) -> Result<Option<String>, String> {
        let output = run(Command::new("rt").arg("lib").current_dir(self.copy.join("crates/exports")))?;
        Ok(if output.status.success() { None } else { Some(fault::refusal(&text(&output))) })
    }

    /// Hunts over the library in the copy; what was found, if something was.
    fn hunt(&self, seconds: &str) -> Result<Option<String>, String> {
        let target = self.copy.join("hunt");
        let mut build = Command::new("cargo");
        build.args(["build", "--release", "--offline", "--bin", "hunt"]).current_dir(&self.rust);
        build.env("CURRYCREAM_LIBRARY", self.copy.join("crates/exports/out")).env("CARGO_TARGET_DIR", &target);
        let built = run(&mut build)?;
        if !built.status.success() {
            return Err(text(&built));
        }
        let found = run(Command::new(target.join("release/hunt")).env("HUNT_SECONDS", seconds))?;
        match found.status.code() {
            Some(0) => Ok(None),
            Some(1) => Ok(Some(headline(&text(&found)))),
            other => Err(format!("the hunt ended with {other:?}: {}", text(&found))),
        }
    }

    /// What became of a fault, and whether somebody caught it.
    fn judge(&self, fault: &Fault) -> (String, bool) {
        let before = match self.apply(fault) {
            Ok(before) => before,
            Err(why) => return (format!("NOT PLANTED: {why}"), false),
        };
        let verdict = match self.prove() {
            Ok(Some(who)) => (format!("refused by {who}"), true),
            Ok(None) => match self.hunt(HUNT_SECONDS) {
                Ok(Some(what)) => (format!("caught by the checker ({what})"), true),
                Ok(None) => ("NOT CAUGHT".to_string(), false),
                Err(why) => (format!("NOT CAUGHT: {why}"), false),
            },
            Err(why) => (format!("NOT PLANTED: {why}"), false),
        };
        for (path, old) in before.into_iter().rev() {
            fs::write(path, old).expect("the copy can be written");
        }
        verdict
    }
}

/// The first line of what a hunt found, shortened.
fn headline(found: &str) -> String {
    let line = found.lines().find_map(|line| line.strip_prefix("UNEXPLAINED ")).unwrap_or("no words");
    line.chars().take(120).collect::<String>().replace('|', "/")
}

fn faults(folder: &Path, names: &[String]) -> Result<Vec<Fault>, String> {
    let mut faults = Vec::new();
    for entry in fs::read_dir(folder).map_err(|error| error.to_string())? {
        let path = entry.map_err(|error| error.to_string())?.path();
        let name = path.file_stem().unwrap_or_default().to_string_lossy().into_owned();
        if names.is_empty() || names.contains(&name) {
            faults.push(fault::parse(&name, &fs::read_to_string(&path).map_err(|error| error.to_string())?)?);
        }
    }
    faults.sort_by(|a, b| a.name.cmp(&b.name));
    Ok(faults)
}

fn run_all() -> Result<bool, String> {
    let names: Vec<String> = std::env::args().skip(1).collect();
    let repository = CopiedRepository::new()?;
    let faults = faults(&repository.rust.join("faults"), &names)?;
    println!("in {}", repository.copy.display());
    if let Some(who) = repository.prove()? {
        return Err(format!("without a fault: refused by {who}"));
    }
    if let Some(what) = repository.hunt("20")? {
        return Err(format!("without a fault: {what}"));
    }
    let mut table = "| fault | what it is | what became of it |\n|---|---|---|\n".to_string();
    let mut all_caught = true;
    for fault in faults {
        let (verdict, caught) = repository.judge(&fault);
        println!("{}: {verdict}", fault.name);
        table += &format!("| `{}` | {} | {verdict} |\n", fault.name, fault.about);
        all_caught &= caught;
    }
    println!("\n{table}");
    Ok(all_caught)
}

fn main() {
    match run_all() {
        Ok(all_caught) => std::process::exit(i32::from(!all_caught)),
        Err(why) => {
            eprintln!("{why}");
            std::process::exit(2);
        }
    }
}

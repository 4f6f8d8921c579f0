//! Planted faults: what is to be changed in which file.

/// Text that stands once in a file, and what takes its place.
#[derive(Clone, PartialEq, Eq, Debug)]
pub struct Edit {
    pub file: String,
    pub old: String,
    pub new: String,
}

#[derive(Clone, PartialEq, Eq, Debug)]
pub struct Fault {
    pub name: String,
    /// What the fault is, in words.
    pub about: String,
    pub edits: Vec<Edit>,
}

/// Text of a line; `\n` stands for a line break.
fn unescaped(text: &str) -> String {
    text.replace("\\n", "\n")
}

/// Reads the lines `-- words`, `file: PATH`, `old: TEXT` and `new: TEXT`.
pub fn parse(name: &str, text: &str) -> Result<Fault, String> {
    let mut fault = Fault { name: name.to_string(), about: String::new(), edits: Vec::new() };
    let (mut file, mut old) = (String::new(), None);
    for line in text.lines().filter(|line| !line.is_empty()) {
        if let Some(words) = line.strip_prefix("--") {
            fault.about = format!("{} {}", fault.about, words.trim()).trim().to_string();
        } else if let Some(path) = line.strip_prefix("file: ") {
            file = path.trim().to_string();
        } else if let Some(text) = line.strip_prefix("old: ") {
            old = Some(unescaped(text));
        } else if let Some(text) = line.strip_prefix("new:") {
            let old = old.take().ok_or_else(|| format!("{name}: new without old"))?;
            fault.edits.push(Edit { file: file.clone(), old, new: unescaped(text.strip_prefix(' ').unwrap_or(text)) });
        } else {
            return Err(format!("{name}: {line}"));
        }
    }
    if old.is_some() || fault.edits.is_empty() || fault.about.is_empty() {
        return Err(format!("{name}: nothing to change, or nothing said of it"));
    }
    Ok(fault)
}

impl Edit {
    /// The text with the change; the old text has to stand in it once.
    pub fn apply(&self, text: &str) -> Result<String, String> {
        match text.matches(&self.old).count() {
            1 => Ok(text.replacen(&self.old, &self.new, 1)),
            many => Err(format!("{} has {many} times: {}", self.file, self.old)),
        }
    }
}

/// The function that a prover's output names as not proved, or else its first error.
pub fn refusal(output: &str) -> String {
    let function = output.lines().find_map(|line| {
        let (name, verdict) = line.strip_prefix("fn ")?.split_once(": ")?;
        (verdict != "proved").then(|| format!("the proof of {name}"))
    });
    let error = || output.lines().find(|line| line.starts_with("error")).map(|line| format!("an error: {line}"));
    function.or_else(error).unwrap_or_else(|| "something else".to_string())
}

#[cfg(test)]
mod tests {
    use super::*;

    #[test]
    fn a_fault_is_read_and_applied() {
        let fault = parse("a", "-- nothing is\n-- copied\nfile: x.rt\nold: one\\ntwo\nnew: three\nold: four\nnew:\n").unwrap();
        assert_eq!(fault.about, "nothing is copied");
        assert_eq!(fault.edits[0].apply("zero\none\ntwo\n"), Ok("zero\nthree\n".to_string()));
        assert_eq!(fault.edits[1].new, "");
        assert!(fault.edits[1].apply("four four").is_err());
        assert!(parse("a", "-- words only\n").is_err());
    }

    #[test]
    fn what_was_refused() {
        assert_eq!(refusal("fn a::b: proved\nfn a::c: no proof: expected answers\nerror: x\n"), "the proof of a::c");
        assert_eq!(refusal("error[E1]: x\n"), "an error: error[E1]: x");
    }

    #[test]
    fn all_faults_fit_the_sources() {
        let folder = std::path::Path::new(env!("CARGO_MANIFEST_DIR"));
        for entry in std::fs::read_dir(folder.join("faults")).unwrap() {
            let path = entry.unwrap().path();
            let fault = parse(&path.display().to_string(), &std::fs::read_to_string(&path).unwrap()).unwrap();
            for edit in &fault.edits {
                let source = std::fs::read_to_string(folder.join("..").join(&edit.file)).unwrap();
                edit.apply(&source).unwrap_or_else(|why| panic!("{}: {why}", fault.name));
            }
        }
    }
}

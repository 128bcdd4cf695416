//! The text of an edit, and its changes of a file.

/// An edit, read from its text.
#[derive(Debug, Default, PartialEq, Eq)]
pub struct Edit {
    pub wrong: String,
    pub rule: String,
    pub hidden: Option<String>,
    pub changes: Vec<Change>,
}

/// Some lines of a file and what replaces them.
#[derive(Debug, Default, PartialEq, Eq)]
pub struct Change {
    pub file: String,
    pub old: Vec<String>,
    pub new: Vec<String>,
}

impl Edit {
    pub fn read(text: &str) -> Result<Edit, String> {
        let mut edit = Edit::default();
        let mut file = String::new();
        let mut open = false;
        for line in text.lines() {
            if let Some(old) = line.strip_prefix('-') {
                edit.old_line(&file, old, open)?;
                open = true;
            } else if let Some(new) = line.strip_prefix('+') {
                edit.new_line(new)?;
            } else if let Some((key, value)) = line.split_once(':') {
                let value = value.trim().to_string();
                match key {
                    "wrong" => edit.wrong = value,
                    "rule" => edit.rule = value,
                    "hidden" => edit.hidden = Some(value),
                    "file" => (file, open) = (value, false),
                    _ => return Err(format!("unknown line: {line}")),
                }
            } else if line.trim().is_empty() {
                open = false;
            } else {
                return Err(format!("unknown line: {line}"));
            }
        }
        edit.complete()
    }

    /// A line of the open change, or the first one of another.
    fn old_line(&mut self, file: &str, line: &str, open: bool) -> Result<(), String> {
        if file.is_empty() {
            return Err(format!("no file named before: -{line}"));
        }
        if !open {
            self.changes.push(Change {
                file: file.to_string(),
                ..Change::default()
            });
        }
        let change = self.changes.last_mut().unwrap();
        if !change.new.is_empty() {
            return Err(format!("no blank line before: -{line}"));
        }
        change.old.push(line.trim().to_string());
        Ok(())
    }

    fn new_line(&mut self, line: &str) -> Result<(), String> {
        let change = self.changes.last_mut();
        let change = change.ok_or(format!("no old line before: +{line}"))?;
        change.new.push(line.trim().to_string());
        Ok(())
    }

    fn complete(self) -> Result<Edit, String> {
        if self.wrong.is_empty() || self.rule.is_empty() {
            return Err("it doesn't say what is wrong, or by which rule".to_string());
        }
        if self.changes.is_empty() {
            return Err("it changes nothing".to_string());
        }
        Ok(self)
    }
}

impl Change {
    /// The file's text with the old lines replaced, which stand in it once.
    pub fn apply(&self, text: &str) -> Result<String, String> {
        let lines: Vec<&str> = text.lines().collect();
        let here = |window: &[&str]| {
            let pairs = window.iter().zip(&self.old);
            pairs.into_iter().all(|(line, old)| line.trim() == old)
        };
        let windows = lines.windows(self.old.len()).enumerate();
        let places: Vec<usize> = windows
            .filter(|(_, window)| here(window))
            .map(|(place, _)| place)
            .collect();
        let [place] = places[..] else {
            let count = places.len();
            let old = self.old.join("\n  ");
            return Err(format!("{}: {count} places have\n  {old}", self.file));
        };
        if self.old == self.new {
            return Err(format!("{}: nothing changes", self.file));
        }
        let new = self.new.iter().map(String::as_str);
        let before = lines[..place].iter().copied();
        let after = lines[place + self.old.len()..].iter().copied();
        let all: Vec<&str> = before.chain(new).chain(after).collect();
        Ok(all.join("\n") + "\n")
    }
}

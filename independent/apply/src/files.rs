//! Files as text: the model's, and the copies.

use std::collections::BTreeMap;
use std::fs;
use std::io;
use std::path::{Path, PathBuf};

use crate::edit::Edit;

/// Files by their path, as text.
pub type Files = BTreeMap<PathBuf, String>;

/// The model's files with the edit's changes.
pub fn edited(model: &Files, edit: &Edit) -> Result<Files, String> {
    let mut copy = model.clone();
    for change in &edit.changes {
        let text = copy.get_mut(Path::new(&change.file));
        let text = text.ok_or(format!("there is no file {}", change.file))?;
        *text = change.apply(text)?;
    }
    Ok(copy)
}

/// All files below a folder, by their path in it.
pub fn read_files(folder: &Path) -> io::Result<Files> {
    let mut files = Files::new();
    let mut folders = vec![folder.to_path_buf()];
    while let Some(next) = folders.pop() {
        for entry in fs::read_dir(next)? {
            let path = entry?.path();
            if path.is_dir() {
                folders.push(path);
            } else {
                let name = path.strip_prefix(folder).unwrap().to_path_buf();
                files.insert(name, fs::read_to_string(&path)?);
            }
        }
    }
    Ok(files)
}

/// Writes the files that are new or others, so that only their copies are built
/// again, and removes the copies that are no more.
pub fn write_files(out: &Path, files: &Files) -> io::Result<()> {
    for (name, text) in files {
        let path = out.join(name);
        if fs::read_to_string(&path).is_ok_and(|old| old == *text) {
            continue;
        }
        fs::create_dir_all(path.parent().unwrap())?;
        fs::write(path, text)?;
    }
    for old in read_files(&out.join("copies"))?.into_keys() {
        let name = Path::new("copies").join(old);
        if !files.contains_key(&name) {
            fs::remove_file(out.join(name))?;
        }
    }
    Ok(())
}

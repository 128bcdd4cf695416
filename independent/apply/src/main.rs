//! `apply FAULTS INDEPENDENT OUT` applies each edit under the folder FAULTS to a
//! copy of INDEPENDENT's model, and writes to the folder OUT one program with all
//! the copies, which compares each with the library. Says which edits don't
//! apply, and then ends with status 1.

use std::collections::BTreeSet;
use std::io;
use std::path::{Path, PathBuf};
use std::process::ExitCode;

use apply::edit::Edit;
use apply::files::{edited, read_files, write_files, Files};

fn main() -> ExitCode {
    let arguments: Vec<PathBuf> = std::env::args().skip(1).map(PathBuf::from).collect();
    let [faults, independent, out] = &arguments[..] else {
        eprintln!("usage: apply FAULTS INDEPENDENT OUT");
        return ExitCode::from(2);
    };
    match run(faults, independent, out) {
        Ok(true) => ExitCode::SUCCESS,
        Ok(false) => ExitCode::FAILURE,
        Err(error) => {
            eprintln!("apply: {error}");
            ExitCode::from(2)
        }
    }
}

fn run(faults: &Path, independent: &Path, out: &Path) -> io::Result<bool> {
    let model = read_files(&independent.join("model/src"))?;
    let texts = read_files(faults)?;
    let mut names = BTreeSet::new();
    let mut copies = Vec::new();
    let mut failed = 0;
    for (path, text) in &texts {
        match Copy::new(path, text, &model) {
            Ok(copy) if names.insert(copy.name.clone()) => copies.push(copy),
            Ok(copy) => {
                failed += 1;
                println!("{}: another edit has this name", copy.path);
            }
            Err(error) => {
                failed += 1;
                println!("{}: {error}", path.display());
            }
        }
    }
    if failed > 0 {
        println!("{} edits, {failed} don't apply", texts.len());
        return Ok(false);
    }
    let mut files: Files = copies.iter().flat_map(Copy::package).collect();
    files.insert("Cargo.toml".into(), manifest(independent, &copies)?);
    files.insert("src/main.rs".into(), program(&copies));
    write_files(out, &files)?;
    println!("{} edits apply", copies.len());
    Ok(true)
}

/// A copy of the model with an edit.
struct Copy {
    name: String,
    /// The edit's path, without its ending.
    path: String,
    edit: Edit,
    files: Files,
}

impl Copy {
    fn new(path: &Path, text: &str, model: &Files) -> Result<Copy, String> {
        let name = path.file_stem().unwrap_or_default();
        let edit = Edit::read(text)?;
        let files = edited(model, &edit)?;
        Ok(Copy {
            name: name.to_string_lossy().into_owned(),
            path: path.with_extension("").to_string_lossy().into_owned(),
            edit,
            files,
        })
    }

    /// The files of the copy's package.
    fn package(&self) -> Files {
        let folder = Path::new("copies").join(&self.name);
        let manifest = format!(
            "[package]\nname = {:?}\nversion = \"0.1.0\"\nedition = \"2021\"\n\n\
             [lints.rust]\nwarnings = \"allow\"\n",
            self.name
        );
        let files = self.files.iter();
        let sources = files.map(|(path, text)| (folder.join("src").join(path), text.clone()));
        let mut package: Files = sources.collect();
        package.insert(folder.join("Cargo.toml"), manifest);
        package
    }
}

/// The copies aren't optimized: building them takes longer than running them.
fn manifest(independent: &Path, copies: &[Copy]) -> io::Result<String> {
    let against = independent.canonicalize()?.join("against");
    let mut text = format!(
        "[package]\nname = \"faults\"\nversion = \"0.1.0\"\nedition = \"2021\"\n\n\
         [workspace]\n\n\
         [profile.release]\nopt-level = 0\ncodegen-units = 1\n\n\
         [profile.release.package.model]\nopt-level = 3\n\n\
         [profile.release.package.cases]\nopt-level = 3\n\n\
         [dependencies]\nagainst = {{ path = {against:?} }}\n"
    );
    for Copy { name, .. } in copies {
        text.push_str(&format!("{name} = {{ path = \"copies/{name}\" }}\n"));
    }
    Ok(text)
}

/// The program that tries all copies.
fn program(copies: &[Copy]) -> String {
    let mut text =
        "fn main() -> std::process::ExitCode {\n    against::faults::run(&[\n".to_string();
    for copy in copies {
        let package = copy.name.replace('-', "_");
        let (path, wrong, hidden) = (&copy.path, &copy.edit.wrong, copy.edit.hidden.is_some());
        text.push_str(&format!(
            "        against::faulty!({package}, {path:?}, {wrong:?}, {hidden}),\n"
        ));
    }
    text + "    ])\n}\n"
}

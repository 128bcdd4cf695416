//! Writes the corpus: `corpus DIR` writes `DIR/stdin` and `DIR/stdout`.

use std::fs;
use std::io;
use std::path::Path;
use std::process::ExitCode;

use cases::corpus::items;
use cases::stream::push_item;
use model::gate;

fn main() -> ExitCode {
    let arguments: Vec<String> = std::env::args().skip(1).collect();
    let [folder] = &arguments[..] else {
        eprintln!("usage: corpus DIR");
        return ExitCode::from(2);
    };
    match write(Path::new(folder)) {
        Ok(()) => ExitCode::SUCCESS,
        Err(error) => {
            eprintln!("corpus: {folder}: {error}");
            ExitCode::from(2)
        }
    }
}

fn write(folder: &Path) -> io::Result<()> {
    let items = items();
    let mut stream = Vec::new();
    let mut answers = String::new();
    for item in &items {
        push_item(&mut stream, item);
        answers.push_str(&gate::answer(item));
    }
    fs::create_dir_all(folder)?;
    fs::write(folder.join("stdin"), &stream)?;
    fs::write(folder.join("stdout"), &answers)?;
    println!(
        "{} items, {} bytes in, {} bytes out",
        items.len(),
        stream.len(),
        answers.len()
    );
    Ok(())
}

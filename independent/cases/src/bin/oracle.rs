//! Answers one input from standard input as `acsroute` does, or with `--stream`
//! all items of a stream.

use std::io::{self, Read, Write};
use std::process::ExitCode;

use cases::stream::items;
use model::{acsroute, gate};

fn main() -> ExitCode {
    let stream = match std::env::args().nth(1).as_deref() {
        None => false,
        Some("--stream") => true,
        Some(_) => {
            eprintln!("usage: oracle [--stream]");
            return ExitCode::from(2);
        }
    };
    match answer(stream) {
        Ok(()) => ExitCode::SUCCESS,
        Err(error) => {
            eprintln!("oracle: {error}");
            ExitCode::from(2)
        }
    }
}

fn answer(stream: bool) -> io::Result<()> {
    let mut input = Vec::new();
    io::stdin().lock().read_to_end(&mut input)?;
    let mut out = io::BufWriter::new(io::stdout().lock());
    if !stream {
        out.write_all(acsroute(&input).as_bytes())?;
        return out.flush();
    }
    for item in items(&input) {
        let item = item.map_err(|()| io::Error::other("the last item is cut off"))?;
        out.write_all(gate::answer(item).as_bytes())?;
    }
    out.flush()
}

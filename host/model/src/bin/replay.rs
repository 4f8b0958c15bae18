//! replay [--print]: the result number of each line of standard input, a line each, by the
//! independent reader and store; or what each line says, printed again ("9" where it is no form).

use model::{Entry, Replay, NOT_A_LINE};
use std::io::{self, BufRead, BufWriter, Write};

fn main() -> io::Result<()> {
    let print = match std::env::args().nth(1).as_deref() {
        None => false,
        Some("--print") => true,
        Some(_) => {
            eprintln!("usage: replay [--print] <RECORDING");
            std::process::exit(2)
        }
    };
    let mut replay = Replay::fresh();
    let mut output = BufWriter::new(io::stdout().lock());
    for line in io::stdin().lock().split(b'\n') {
        let line = line?;
        match Entry::read(&line) {
            Some(entry) if print => writeln!(output, "{entry}")?,
            None if print => writeln!(output, "{NOT_A_LINE}")?,
            _ => writeln!(output, "{}", replay.line(&line))?,
        }
    }
    output.flush()
}

//! The second planner as a program: standard input to standard output.
//! With the word `met`: one line for each partition met in dividing, its cost and the block of each task.

use std::io::{self, Read, Write};

use second::plan::{met_text, plan, read};

fn main() -> io::Result<()> {
    let mut bytes = Vec::new();
    io::stdin().read_to_end(&mut bytes)?;
    let met = std::env::args().nth(1).as_deref() == Some("met");
    let text = match (met, read(&bytes)) {
        (true, Ok(request)) => met_text(&request),
        _ => plan(&bytes),
    };
    io::stdout().write_all(text.as_bytes())
}

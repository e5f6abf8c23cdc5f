//! Writes the inputs of the comparison as files, with what the second planner answers to each beside it.
//! generate DIR [SERIES [MOST OF EACH KIND]]

use std::{env, fs, io, path::PathBuf};

fn main() -> io::Result<()> {
    let words: Vec<String> = env::args().skip(1).collect();
    let Some(dir) = words.first().map(PathBuf::from) else {
        eprintln!("generate DIR [SERIES [MOST OF EACH KIND]]");
        std::process::exit(2);
    };
    let number = |k: usize, default: u64| words.get(k).map_or(default, |w| w.parse().expect("a number"));
    let (series, most) = (number(1, 0), number(2, u64::MAX));
    fs::create_dir_all(&dir)?;
    for kind in second::generate::kinds(series) {
        let name: String = kind.name.chars().map(|c| if c.is_alphanumeric() { c } else { '-' }).collect();
        for k in 0..kind.count.min(most) {
            let bytes = kind.input(k);
            fs::write(dir.join(format!("{name}-{k}.in")), &bytes)?;
            fs::write(dir.join(format!("{name}-{k}.out")), second::plan::plan(&bytes))?;
        }
    }
    Ok(())
}

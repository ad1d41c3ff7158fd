//! Writes the files of the corpus anew: the inputs by their formulas, the answers by the second
//! program.

use programs::corpus::{cases, folder};
use std::fs;

fn main() -> std::io::Result<()> {
    fs::remove_dir_all(folder())?;
    fs::create_dir(folder())?;
    for case in cases() {
        fs::write(case.input_file(), &case.input)?;
        fs::write(case.answer_file(), case.program.by_second(&case.input))?;
    }
    Ok(())
}

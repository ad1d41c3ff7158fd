//! The programs of this build beside those of another, on every text of the corpus: the instructions
//! of whole runs.

use crate::measure::whole_instructions;
use programs::corpus::cases;
use std::path::Path;

pub fn write(folder: &Path) {
    let mut rows = Vec::new();
    for case in cases() {
        let file = case.input_file();
        let count = |program: &Path| whole_instructions(program, &file);
        let built = case.program.built();
        let other = folder.join(case.program.name());
        let (Some(here), Some(there)) = (count(&built), count(&other)) else {
            println!("valgrind is not installed");
            return;
        };
        rows.push((here as f64 / there as f64, case.program.name(), case.name));
    }
    rows.sort_by(|a, b| b.0.total_cmp(&a.0));
    let slower = rows.iter().filter(|row| row.0 > 1.1).count();
    println!("{} inputs, {slower} slower by more than a tenth", rows.len());
    for (ratio, program, name) in &rows {
        println!("{ratio:.3} {program} {name}");
    }
}

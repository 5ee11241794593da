//! The model as a day program: reads `sheet.bin` and `day.bin` and prints the day.

use rozhinal_tests::model::day::run_day;
use std::io::Write;

fn main() {
    let read = |name| std::fs::read(name).unwrap_or_default();
    let output = run_day(&read("sheet.bin"), &read("day.bin"));
    std::io::stdout().write_all(&output).unwrap();
}

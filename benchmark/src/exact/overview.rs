//! For the tables of each size and for all: the median and the slowest, and the library's time divided by
//! that of the same search in Rust, in all and in the line where it is greatest.

use super::times::Times;

pub fn print_table(times: &[Times]) {
    println!("\nThe library by size\n");
    println!("| yards | pieces | tables | median | slowest | slowest / median | library / Rust | greatest of a line |");
    println!("|---|---|---|---|---|---|---|---|");
    let mut sizes: Vec<(usize, usize)> = times.iter().map(|times| times.group.size()).collect();
    sizes.sort();
    sizes.dedup();
    for size in sizes.into_iter().rev() {
        let of_size = times.iter().filter(|times| times.group.size() == size).collect();
        println!("| {} | {} | {} |", size.0, size.1, columns(of_size));
    }
    println!("| all | | {} |", columns(times.iter().collect()));
}

fn columns(times: Vec<&Times>) -> String {
    let [mut library, rust] = [
        times.iter().flat_map(|times| &times.library.each).copied().collect::<Vec<f64>>(),
        times.iter().flat_map(|times| &times.by_sets.each).copied().collect(),
    ];
    library.sort_by(f64::total_cmp);
    let count = library.len();
    let median = (library[(count - 1) / 2] + library[count / 2]) / 2.0;
    let slowest = library[count - 1];
    let to_median = slowest / median;
    let ratio = library.iter().sum::<f64>() / rust.iter().sum::<f64>();
    let greatest = times.iter().map(|times| times.ratio()).fold(0.0, f64::max);
    format!("{count} | {median:.1} | {slowest:.1} | {to_median:.1} | {ratio:.2} | {greatest:.2}")
}

// Times the proved library against a plain Rust program that does the same work. With words as arguments, only the cases
// whose names have one of them are timed.
mod cases;
mod library;
mod plain;
mod timing;

fn main() {
    let words: Vec<String> = std::env::args().skip(1).collect();
    println!(
        "{:<26} {:>12} {:>12} {:>7} {:>9}",
        "case", "library", "plain Rust", "ratio", "medians"
    );
    for case in cases::all() {
        if !words.is_empty() && !words.iter().any(|word| case.name.contains(word)) {
            continue;
        }
        match timing::compare(&case) {
            Some(times) => println!("{:<26} {times}", case.name),
            None => {
                eprintln!(
                    "{}: the checksums differ, or the work was declined",
                    case.name
                );
                std::process::exit(1);
            }
        }
    }
}

// How figures are printed.

/// Nanoseconds to three or four digits.
pub fn ns(time: f64) -> String {
    match time {
        t if t < 99.95 => format!("{t:.1}"),
        t => format!("{t:.0}"),
    }
}

/// 1234567 as 1,234,567.
pub fn thousands(number: u64) -> String {
    let digits = number.to_string();
    let mut spelled = String::new();
    for (k, digit) in digits.chars().enumerate() {
        if k > 0 && (digits.len() - k) % 3 == 0 {
            spelled.push(',');
        }
        spelled.push(digit);
    }
    spelled
}

/// A name at the left, then columns that end alike.
pub fn line(name: &str, columns: impl IntoIterator<Item = String>) {
    print!("  {name:<26}");
    for column in columns {
        print!("{column:>11}");
    }
    println!();
}

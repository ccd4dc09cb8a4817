//! Tables in Markdown.

/// A number in groups of three digits.
pub fn whole(value: f64) -> String {
    let digits = format!("{value:.0}");
    let mut text = String::new();
    for (index, digit) in digits.chars().enumerate() {
        if index > 0 && (digits.len() - index) % 3 == 0 {
            text.push(',');
        }
        text.push(digit);
    }
    text
}

pub fn count(value: usize) -> String {
    whole(value as f64)
}

/// Seconds as milliseconds.
pub fn ms(seconds: f64) -> String {
    format!("{:.3}", seconds * 1e3)
}

/// Seconds as microseconds.
pub fn us(seconds: f64) -> String {
    format!("{:.1}", seconds * 1e6)
}

/// A factor or ratio.
pub fn times(factor: f64) -> String {
    format!("{factor:.2}")
}

pub fn row(cells: &[String]) {
    println!("| {} |", cells.join(" | "));
}

/// The first column is text, the others are numbers.
pub fn head(title: &str, columns: &[&str]) {
    println!("\n### {title}\n\n| {} |\n|---|{}", columns.join(" | "), "---:|".repeat(columns.len() - 1));
}

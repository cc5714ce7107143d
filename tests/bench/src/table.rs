//! Prints times, ratios and tables as markdown.

/// One line of the table of times, in nanoseconds.
pub struct Row {
    pub input: String,
    pub call: String,
    pub library: f64,
    pub reference: f64,
    pub limit: Option<f64>,
}

/// One line of the table of growth: the time of a count by its variables and bytes.
pub struct Growth {
    pub input: String,
    pub variables: usize,
    pub bytes: usize,
    pub library: f64,
    pub reference: f64,
}

/// A number with a comma before every three digits.
pub fn grouped(number: usize) -> String {
    let digits = number.to_string();
    let mut text = String::new();
    for (at, digit) in digits.chars().enumerate() {
        if at > 0 && (digits.len() - at).is_multiple_of(3) {
            text.push(',');
        }
        text.push(digit);
    }
    text
}

/// A number with three significant digits.
fn short(number: f64) -> String {
    let places = match number {
        n if n >= 99.95 => 0,
        n if n >= 9.995 => 1,
        _ => 2,
    };
    format!("{number:.places$}")
}

/// A time with its unit.
fn time(nanoseconds: f64) -> String {
    match nanoseconds {
        n if n < 1e3 => format!("{} ns", short(n)),
        n if n < 1e6 => format!("{} us", short(n / 1e3)),
        n if n < 1e9 => format!("{} ms", short(n / 1e6)),
        n => format!("{} s", short(n / 1e9)),
    }
}

/// Prints the head of the table of times.
pub fn print_times_head() {
    println!(
        "| Input | Call | Library | Reference | Library / reference | Limit | Library / limit |"
    );
    println!("|---|---|--:|--:|--:|--:|--:|");
}

/// Prints one line of the table of times.
pub fn print_times(row: &Row) {
    let ratio = short(row.library / row.reference);
    let limit = row.limit.map(time).unwrap_or_default();
    let limit_ratio = row
        .limit
        .map(|limit| short(row.library / limit))
        .unwrap_or_default();
    let (library, reference) = (time(row.library), time(row.reference));
    println!(
        "| {} | {} | {library} | {reference} | {ratio} | {limit} | {limit_ratio} |",
        row.input, row.call
    );
}

/// Prints the table of growth.
pub fn print_growth(lines: &[Growth]) {
    println!("| Input | Variables | Bytes used | Library, ns per variable | Reference, ns per variable | Library, ns per byte | Reference, ns per byte |");
    println!("|---|--:|--:|--:|--:|--:|--:|");
    for line in lines {
        let each = |time: f64, parts: usize| short(time / parts as f64);
        println!(
            "| {} | {} | {} | {} | {} | {} | {} |",
            line.input,
            grouped(line.variables),
            grouped(line.bytes),
            each(line.library, line.variables),
            each(line.reference, line.variables),
            each(line.library, line.bytes),
            each(line.reference, line.bytes)
        );
    }
}

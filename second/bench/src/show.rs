//! Tables of figures.

/// A table of Markdown: the names of its columns, numbers to the right but for `texts` columns.
pub fn table(texts: usize, names: &[&str], rows: impl IntoIterator<Item = Vec<String>>) -> String {
    let rules = (0..names.len()).map(|place| if place < texts { "---" } else { "---:" });
    let rules: Vec<&str> = rules.collect();
    let mut lines = vec![format!("| {} |", names.join(" | ")), format!("|{}|", rules.join("|"))];
    lines.extend(rows.into_iter().map(|cells| format!("| {} |", cells.join(" | "))));
    lines.join("\n")
}

/// A time; a dash where there is none.
pub fn time(time: Option<f64>) -> String {
    time.map_or("-".into(), |time| format!("{time:.0}"))
}

/// How many times as long the first took as the second.
pub fn ratio(first: Option<f64>, second: Option<f64>) -> String {
    first.zip(second).map_or("-".into(), |(first, second)| format!("{:.1}", first / second))
}

/// The second engine's time, the proved code's, and how many times as long that is.
pub fn beside(second: Option<f64>, proved: Option<f64>) -> Vec<String> {
    vec![time(second), time(proved), ratio(proved, second)]
}

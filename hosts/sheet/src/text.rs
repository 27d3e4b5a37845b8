//! Texts of a page: escaped, and figures as a person reads them.

/// The text with what HTML takes for its own put in other words.
pub fn escape(text: &str) -> String {
    let mut escaped = String::with_capacity(text.len());
    for character in text.chars() {
        match character {
            '&' => escaped.push_str("&amp;"),
            '<' => escaped.push_str("&lt;"),
            '>' => escaped.push_str("&gt;"),
            '"' => escaped.push_str("&quot;"),
            '\'' => escaped.push_str("&#39;"),
            _ => escaped.push(character),
        }
    }
    escaped
}

/// A number with a comma between thousands.
pub fn grouped(number: impl Into<u128>) -> String {
    let digits = number.into().to_string();
    let mut grouped = String::new();
    for (at, digit) in digits.chars().enumerate() {
        if at > 0 && (digits.len() - at) % 3 == 0 {
            grouped.push(',');
        }
        grouped.push(digit);
    }
    grouped
}

/// How many, and of what: the word as it is for one, and with an s for others.
pub fn many(number: u64, word: &str) -> String {
    let s = if number == 1 { "" } else { "s" };
    format!("{} {word}{s}", grouped(number))
}

/// Before a number that is rounded.
const NEARLY: &str = "≈\u{2009}";

/// A quotient, to two places where it is no whole number.
pub fn quotient(times: u128, sum: u64) -> String {
    let sum = u128::from(sum.max(1));
    let (whole, over) = (times / sum, times % sum);
    let (hundredths, rest) = (over * 100 / sum, over * 100 % sum);
    match (over, rest) {
        (0, _) => grouped(whole),
        (_, 0) => format!("{}.{hundredths:02}", grouped(whole))
            .trim_end_matches('0')
            .to_string(),
        _ => {
            let rounded = (times * 100 + sum / 2) / sum;
            format!("{NEARLY}{}.{:02}", grouped(rounded / 100), rounded % 100)
        }
    }
}

/// The same with a sign: behind is below 0.
pub fn signed_quotient(times: i128, sum: u64) -> String {
    let is = quotient(times.unsigned_abs(), sum);
    let sign = match times {
        0 => "",
        _ if times < 0 => "−",
        _ => "+",
    };
    match is.strip_prefix(NEARLY) {
        Some(number) => format!("{NEARLY}{sign}{number}"),
        None => format!("{sign}{is}"),
    }
}

/// Words in a row: a, b and c.
pub fn listed(words: &[String]) -> String {
    match words {
        [] => String::new(),
        [one] => one.clone(),
        [front @ .., last] => format!("{} and {last}", front.join(", ")),
    }
}

/// A share of a whole, with words for a half, a third and a quarter, and else in percent.
pub fn share(turn: u64, sum: u64) -> String {
    match (turn * 2 == sum, turn * 3 == sum, turn * 4 == sum) {
        _ if turn == sum => String::from("all"),
        (true, _, _) => String::from("half"),
        (_, true, _) => String::from("a third"),
        (_, _, true) => String::from("a quarter"),
        _ => format!("{}\u{a0}%", quotient(u128::from(turn) * 100, sum)),
    }
}

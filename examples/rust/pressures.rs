//! A rule for floats, that of docs/RULES.md, "Pressures in a range", from Rust: matched, judged, and why a superset does not match. It prints the
//! lines of examples/pressures.out, and so does examples/c/pressures.c. `tools/test-callers` builds and compares both.

use intake::{judge_floats, match_floats, why_not_floats, Answer, FloatList, Verdict, Why};

/// A range as an element template: 07, the lower bound, the upper bound.
fn range(lower: f64, upper: f64) -> Vec<u8> {
    [&[0x07], &lower.to_le_bytes()[..], &upper.to_le_bytes()[..]].concat()
}

/// A pressure in hPa: {(870.0..1085.0)}.
fn one_pressure() -> Vec<u8> {
    [vec![0x10, 1], range(870.0, 1085.0)].concat()
}

/// The same with a NaN for the upper bound.
fn no_rule() -> Vec<u8> {
    [vec![0x10, 1], range(870.0, f64::NAN)].concat()
}

/// At least two pressures: superset((870.0..1085.0), (870.0..1085.0)).
fn two_pressures() -> Vec<u8> {
    let pressure = range(870.0, 1085.0);
    [vec![0x12, 2], pressure.clone(), pressure].concat()
}

fn list_of(elements: &[f64]) -> FloatList<'_> {
    FloatList::new(elements).expect("no list here has over 32 elements")
}

/// Each of the words after a space.
fn spaced<T: ToString>(words: impl IntoIterator<Item = T>) -> String {
    let words = words
        .into_iter()
        .map(|word| format!(" {}", word.to_string()));
    words.collect()
}

fn named(element: f64) -> String {
    if element.is_nan() {
        return String::from("no pressure, a NaN");
    }
    format!("pressure {element:.2}")
}

fn match_pressure(name: &str, rule: &[u8], element: f64) {
    let answer = match match_floats(rule, list_of(&[element])) {
        Answer::Matched(witness) => format!("matches, members{}", spaced(witness.iter())),
        Answer::NoMatch => String::from("does not match"),
        Answer::Refused(refusal) => format!("refused, number {}", refusal.number()),
    };
    println!("{name}{}: {answer}", named(element));
}

fn judge_pressure(element: f64, member: u8) {
    let (list, members) = ([element], [member]);
    let offer = list_of(&list).offer(&members).expect("a member for each");
    let verdict = match judge_floats(&one_pressure(), offer) {
        Verdict::Obeys => "obeys",
        Verdict::DoesNotObey => "does not obey",
        Verdict::Refused(_) => "refused",
    };
    println!("{}, members {member}: {verdict}", named(element));
}

fn explain(elements: &[f64]) {
    let reason = match why_not_floats(&two_pressures(), list_of(elements)) {
        Why::Matched => String::from("0"),
        Why::NoMatch => String::from("1"),
        Why::Members(group) => {
            let members = spaced(group.places());
            format!("1, too few elements for the members{members}")
        }
        Why::Elements(_) => String::from("1, which only a subset gives elements for"),
        Why::Refused(refusal) => refusal.number().to_string(),
    };
    let elements = spaced(elements.iter().map(|element| format!("{element:.2}")));
    println!("two pressures of{elements}: number {reason}");
}

fn main() {
    let rule = one_pressure();
    match_pressure("", &rule, 1013.25);
    match_pressure("", &rule, 1085.0);
    match_pressure("", &rule, 1085.5);
    match_pressure("", &rule, f64::NAN);
    match_pressure("a rule with a NaN, ", &no_rule(), 1013.25);
    judge_pressure(1013.25, 0);
    judge_pressure(1013.25, 255);
    explain(&[1013.25, 0.5]);
    explain(&[1013.25, 0.5, 870.0]);
}

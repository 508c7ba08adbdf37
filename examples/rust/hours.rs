//! A rule with a type, that of docs/RULES.md, "Hours of the afternoon", from Rust: matched, judged, and in normal form under the type; and what two
//! rules for hours both match. It prints the lines of examples/hours.out, and so does examples/c/hours.c. `tools/test-callers` builds and compares both.

use intake::{judge, match_list, meeting, normalise_typed};
use intake::{Answer, Form, List, Refusal, Verdict};

/// A kind and the bounds behind it: 02 is a range, 31 the type of a rule.
fn bounds(kind: u8, lower: i32, upper: i32) -> Vec<u8> {
    [&[kind], &lower.to_le_bytes()[..], &upper.to_le_bytes()[..]].concat()
}

/// (0..11)
fn morning() -> Vec<u8> {
    bounds(0x02, 0, 11)
}

/// complement((0..11))
fn not_morning() -> Vec<u8> {
    [vec![0x05, 1], morning()].concat()
}

/// The hours in which a desk is open: (6..17), which is a normal form of the type 0 to 23. The morning is one only once it is normalised.
fn open_hours() -> Vec<u8> {
    bounds(0x02, 6, 17)
}

/// An hour of the afternoon: {complement((0..11))}, of the type 0 to 23.
fn afternoon() -> Vec<u8> {
    [bounds(0x31, 0, 23), vec![0x10, 1], not_morning()].concat()
}

fn list_of(elements: &[i32]) -> List<'_> {
    List::new(elements).expect("no list here has over 32 elements")
}

fn match_hour(hour: i32) {
    let answer = match match_list(&afternoon(), list_of(&[hour])) {
        Answer::Matched(witness) => format!("matches, members {}", witness[0]),
        Answer::NoMatch => String::from("does not match"),
        Answer::Refused(refusal) => format!("refused, number {}", refusal.number()),
    };
    println!("hour {hour}: {answer}");
}

fn judge_hour(hour: i32, member: u8) {
    let (list, members) = ([hour], [member]);
    let offer = list_of(&list).offer(&members).expect("a member for each");
    let verdict = match judge(&afternoon(), offer) {
        Verdict::Obeys => String::from("obeys"),
        Verdict::DoesNotObey => String::from("does not obey"),
        Verdict::Refused(refusal) => format!("refused, number {}", refusal.number()),
    };
    println!("hour {hour}, members {member}: {verdict}");
}

fn print_bytes(name: &str, given: Result<Form, Refusal>) {
    let (number, form) = match given {
        Ok(form) => (0, form.to_vec()),
        Err(refusal) => (refusal.number(), Vec::new()),
    };
    let bytes: String = form.iter().map(|byte| format!(" {byte:02x}")).collect();
    let length = form.len();
    println!("{name}, number {number}, {length} bytes:{bytes}");
}

fn print_form(name: &str, template: &[u8], lower: i32, upper: i32) {
    let form = normalise_typed(template, lower, upper);
    print_bytes(&format!("{name} of {lower} to {upper}"), form);
}

/// What the hours of the form and the open ones have in common.
fn meet_open(name: &str, form: &[u8]) {
    print_bytes(
        &format!("{name} and open"),
        meeting(form, &open_hours(), 0, 23),
    );
}

/// The same of an element template, in normal form first.
fn meet_open_normalised(name: &str, template: &[u8]) {
    if let Ok(form) = normalise_typed(template, 0, 23) {
        meet_open(name, &form);
    }
}

fn main() {
    match_hour(12);
    match_hour(11);
    match_hour(40);
    judge_hour(23, 0);
    judge_hour(40, 0);
    print_form("morning", &morning(), 0, 23);
    print_form("not morning", &not_morning(), 0, 23);
    print_form("morning", &morning(), 0, 11);
    print_form("morning", &morning(), 0, 10);
    print_form("morning", &morning(), 23, 0);
    meet_open_normalised("morning", &morning());
    meet_open_normalised("not morning", &not_morning());
    meet_open("open", &open_hours());
    meet_open("morning, not in normal form,", &morning());
}

//! The rule of samples/leap-years.hex, from Rust: matched, judged, in normal form, and why a superset does not match. It prints the lines of
//! examples/leap_years.out, and so does examples/c/leap_years.c. `tools/test-callers` builds and compares both.

use intake::{judge, match_list, normalise, why_not, Answer, List, Verdict, Why};

/// 1 March of a year that is no leap year: {complement((2016, 2020, 2024)), 60}.
const FIRST_OF_MARCH: [u8; 26] = [
    0x10, 2, // record of two items
    0x05, 1, // complement of one element template:
    0x04, 3, //   a list of three
    0x01, 0xe0, 0x07, 0x00, 0x00, //     2016
    0x01, 0xe4, 0x07, 0x00, 0x00, //     2020
    0x01, 0xe8, 0x07, 0x00, 0x00, //     2024
    0x01, 0x3c, 0x00, 0x00, 0x00, // 60
];

/// At least two leap years: superset((2016, 2020, 2024), (2016, 2020, 2024)).
const TWO_LEAP_YEARS: [u8; 36] = [
    0x12, 2, // superset of two members
    0x04, 3, // a list of three
    0x01, 0xe0, 0x07, 0x00, 0x00, //   2016
    0x01, 0xe4, 0x07, 0x00, 0x00, //   2020
    0x01, 0xe8, 0x07, 0x00, 0x00, //   2024
    0x04, 3, // the same list
    0x01, 0xe0, 0x07, 0x00, 0x00, //
    0x01, 0xe4, 0x07, 0x00, 0x00, //
    0x01, 0xe8, 0x07, 0x00, 0x00, //
];

fn list_of(elements: &[i32]) -> List<'_> {
    List::new(elements).expect("no list here has over 32 elements")
}

/// Each of the numbers after a space.
fn spaced<T: ToString>(numbers: impl IntoIterator<Item = T>) -> String {
    let words = numbers.into_iter().map(|n| format!(" {}", n.to_string()));
    words.collect()
}

fn match_day(name: &str, rule: &[u8], [year, day]: [i32; 2]) {
    let answer = match match_list(rule, list_of(&[year, day])) {
        Answer::Matched(witness) => format!("matches, members{}", spaced(witness.iter())),
        Answer::NoMatch => String::from("does not match"),
        Answer::Refused(refusal) => format!("refused, number {}", refusal.number()),
    };
    println!("{name}, year {year}, day {day}: {answer}");
}

fn judge_day([year, day]: [i32; 2], members: [u8; 2]) {
    let list = [year, day];
    let offer = list_of(&list).offer(&members).expect("a member for each");
    let verdict = match judge(&FIRST_OF_MARCH, offer) {
        Verdict::Obeys => "obeys",
        Verdict::DoesNotObey => "does not obey",
        Verdict::Refused(_) => "refused",
    };
    let members = spaced(members);
    println!("year {year}, day {day}, members{members}: {verdict}");
}

/// Of the first item of the rule, an element template by itself.
fn print_form() {
    let (number, form) = match normalise(&FIRST_OF_MARCH[2..21]) {
        Ok(form) => (0, form.to_vec()),
        Err(refusal) => (refusal.number(), Vec::new()),
    };
    let bytes = spaced(form.iter().map(|byte| format!("{byte:02x}")));
    let length = form.len();
    println!("normal form, number {number}, {length} bytes:{bytes}");
}

fn explain(years: &[i32]) {
    let reason = match why_not(&TWO_LEAP_YEARS, list_of(years)) {
        Why::Matched => String::from("0"),
        Why::NoMatch => String::from("1"),
        Why::Members(group) => {
            let members = spaced(group.places());
            format!("1, too few elements for the members{members}")
        }
        Why::Elements(_) => String::from("1, which only a subset gives elements for"),
        Why::Refused(refusal) => refusal.number().to_string(),
    };
    println!("two leap years of{}: number {}", spaced(years), reason);
}

fn main() {
    let cut = &FIRST_OF_MARCH[..FIRST_OF_MARCH.len() - 1];
    match_day("1 March", &FIRST_OF_MARCH, [2023, 60]);
    match_day("1 March", &FIRST_OF_MARCH, [2024, 60]);
    match_day("a rule that is cut", cut, [2023, 60]);
    judge_day([2023, 60], [0, 1]);
    judge_day([2023, 60], [1, 0]);
    print_form();
    explain(&[2023, 2024, 2025, 2026]);
    explain(&[2020, 2021, 2022, 2023, 2024]);
}

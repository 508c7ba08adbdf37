//! Intake from Rust: whether a list of integers or of floats matches a rule, by which assignment, and why not; the normal form of an element
//! template; and the meeting of two normal forms.
//!
//! The functions are those of `include/intake.h`, proved in the repository's crate `exports`. This wrapper is not proved. It lends the rooms
//! itself, and its types leave no way to hand over a wrong length: a [`List`] has at most [`LIST_MOST`] elements, and an [`Offer`] one member for
//! each element of its list. So the numbers 11, 12 and 13 (list too long, room too short, offered witness of another length) are never given.
//! A rule is any run of bytes; every one gets an answer.
//!
//! ```
//! use intake::{judge, match_list, Answer, List, Verdict};
//!
//! let rule = [0x11, 2, 0x03, 0x01, 1, 0, 0, 0]; // set of {any value, 1}
//! let list = List::new(&[1, 5]).unwrap();
//! match match_list(&rule, list) {
//!     Answer::Matched(witness) => assert_eq!(*witness, [1, 0]),
//!     other => panic!("{other:?}"),
//! }
//! assert_eq!(judge(&rule, list.offer(&[0, 1]).unwrap()), Verdict::DoesNotObey);
//! ```
//!
//! The static library is for x86-64 Linux: `tools/archive` writes it to `target/staticlib`, and `INTAKE_LIB_DIR` names another folder.
#![deny(unsafe_code)]
#![warn(missing_docs)]

#[allow(unsafe_code)]
mod library;
mod parts;

pub use parts::{FloatList, Form, Group, List, Offer, Refusal, Witness};
use std::num::NonZeroU32;

/// A rule of more bytes is refused with [`Refusal::TooLong`].
pub const TEMPLATE_MOST: usize = 4096;

/// A list has at most so many elements.
pub const LIST_MOST: usize = 32;

/// A normal form has at most so many bytes.
pub const FORM_MOST: usize = 578;

const DONE: u8 = 0;
const NO_MATCH: u8 = 1;

/// What the matcher says of a list.
#[derive(Clone, Copy, Debug, PartialEq, Eq)]
pub enum Answer {
    /// The list matches, by this witness.
    Matched(Witness),
    /// No assignment of elements to members obeys the rule.
    NoMatch,
    /// The bytes are no rule, or the list is not of the rule's type.
    Refused(Refusal),
}

/// What the judge says of an offered witness.
#[derive(Clone, Copy, Debug, PartialEq, Eq)]
pub enum Verdict {
    /// The assignment obeys the rule, whether or not it is the first that does.
    Obeys,
    /// It does not.
    DoesNotObey,
    /// The bytes are no rule, or the list is not of the rule's type.
    Refused(Refusal),
}

/// Why a list does not match.
#[derive(Clone, Copy, Debug, PartialEq, Eq)]
pub enum Why {
    /// It matches.
    Matched,
    /// It does not, and no group is the reason: the rule is a record of, a set of or a subset under sheet 1, or the length attribute is not met.
    NoMatch,
    /// The rule is a superset, and these members together match fewer elements than they are.
    Members(Group),
    /// The rule is a subset, not under sheet 1, and these elements together are matched by fewer members than they are.
    Elements(Group),
    /// The bytes are no rule, or the list is not of the rule's type.
    Refused(Refusal),
}

/// Whether the list matches the rule, and by which witness: the first in byte order.
///
/// ```
/// use intake::{match_list, Answer, List, Refusal};
///
/// let afternoon = [
///     0x31, 0, 0, 0, 0, 23, 0, 0, 0, // of the type 0 to 23:
///     0x10, 1, 0x05, 1, 0x02, 0, 0, 0, 0, 11, 0, 0, 0, // {complement((0..11))}
/// ];
/// assert!(matches!(match_list(&afternoon, List::new(&[12]).unwrap()), Answer::Matched(_)));
/// assert_eq!(match_list(&afternoon, List::new(&[40]).unwrap()), Answer::Refused(Refusal::ElementOutside));
/// ```
pub fn match_list(rule: &[u8], list: List<'_>) -> Answer {
    let mut room = [0; LIST_MOST];
    let number = library::match_list(rule, list.elements(), &mut room);
    answer(number, room, list.elements().len())
}

/// The same for a list of floats and a rule for floats.
///
/// ```
/// use intake::{match_floats, Answer, FloatList};
///
/// let rule = [&[0x10, 1, 0x07][..], &870.0f64.to_le_bytes(), &1085.0f64.to_le_bytes()].concat(); // {(870.0..1085.0)}
/// assert!(matches!(match_floats(&rule, FloatList::new(&[1013.25]).unwrap()), Answer::Matched(_)));
/// assert_eq!(match_floats(&rule, FloatList::new(&[f64::NAN]).unwrap()), Answer::NoMatch);
/// ```
pub fn match_floats(rule: &[u8], list: FloatList<'_>) -> Answer {
    let mut room = [0; LIST_MOST];
    let number = library::match_floats(rule, list.elements(), &mut room);
    answer(number, room, list.elements().len())
}

fn answer(number: u8, room: [u8; LIST_MOST], length: usize) -> Answer {
    match number {
        DONE => Answer::Matched(Witness::at_front(room, length)),
        NO_MATCH => Answer::NoMatch,
        number => Answer::Refused(Refusal::of(number)),
    }
}

/// Whether the offered witness obeys the rule, for the list that it is offered for.
pub fn judge(rule: &[u8], offer: Offer<'_>) -> Verdict {
    verdict(library::judge(
        rule,
        offer.list().elements(),
        offer.members(),
    ))
}

/// The same for a list of floats and a rule for floats.
pub fn judge_floats(rule: &[u8], offer: Offer<'_, f64>) -> Verdict {
    verdict(library::judge_floats(
        rule,
        offer.list().elements(),
        offer.members(),
    ))
}

fn verdict(number: u8) -> Verdict {
    match number {
        DONE => Verdict::Obeys,
        NO_MATCH => Verdict::DoesNotObey,
        number => Verdict::Refused(Refusal::of(number)),
    }
}

/// The normal form of one element template. Two that match the same integers have the same form.
///
/// ```
/// let list_of_three = [4, 3, 1, 3, 0, 0, 0, 1, 1, 0, 0, 0, 1, 2, 0, 0, 0]; // (3, 1, 2)
/// let form = intake::normalise(&list_of_three).unwrap();
/// assert_eq!(*form, [2, 1, 0, 0, 0, 3, 0, 0, 0]); // the range 1 to 3
/// ```
pub fn normalise(template: &[u8]) -> Result<Form, Refusal> {
    let mut room = [0; FORM_MOST];
    let (number, length) = library::normalise(template, &mut room);
    form(number, room, length)
}

/// The same under a type, the integers from `lower` to `upper`, both of them too: two templates that match the same integers of the type have the
/// same form. With [`i32::MIN`] and [`i32::MAX`] it is that of [`normalise`].
///
/// ```
/// use intake::{normalise_typed, Refusal};
///
/// let morning = [2, 0, 0, 0, 0, 11, 0, 0, 0]; // (0..11)
/// let form = normalise_typed(&morning, 0, 23).unwrap();
/// assert_eq!(*form, [5, 1, 2, 12, 0, 0, 0, 23, 0, 0, 0]); // complement((12..23))
/// assert_eq!(normalise_typed(&morning, 0, 10), Err(Refusal::LeafOutside));
/// assert_eq!(normalise_typed(&morning, 23, 0), Err(Refusal::BadBounds));
/// ```
pub fn normalise_typed(template: &[u8], lower: i32, upper: i32) -> Result<Form, Refusal> {
    let mut room = [0; FORM_MOST];
    let (number, length) = library::normalise_typed(template, lower, upper, &mut room);
    form(number, room, length)
}

/// The meeting of two normal forms under a type, the integers from `lower` to `upper`, both of them too: the normal form of what both match. Each is
/// what [`normalise_typed`] gives for some template under the same bounds; without a type these are [`i32::MIN`] and [`i32::MAX`].
///
/// ```
/// use intake::{meeting, normalise_typed, Refusal};
///
/// let morning = [2, 0, 0, 0, 0, 11, 0, 0, 0]; // (0..11)
/// let open = [2, 6, 0, 0, 0, 17, 0, 0, 0]; // (6..17)
/// let form = normalise_typed(&morning, 0, 23).unwrap();
/// assert_eq!(*meeting(&form, &open, 0, 23).unwrap(), [2, 6, 0, 0, 0, 11, 0, 0, 0]); // (6..11)
/// assert_eq!(meeting(&morning, &open, 0, 23), Err(Refusal::NoNormalForm)); // it is complement((12..23)) there
/// ```
pub fn meeting(first: &[u8], second: &[u8], lower: i32, upper: i32) -> Result<Form, Refusal> {
    let mut room = [0; FORM_MOST];
    let (number, length) = library::meeting(first, second, lower, upper, &mut room);
    form(number, room, length)
}

fn form(number: u8, room: [u8; FORM_MOST], length: usize) -> Result<Form, Refusal> {
    match number {
        DONE => Ok(Form::at_front(room, length)),
        number => Err(Refusal::of(number)),
    }
}

/// Why the list does not match the rule: of a superset or a subset the group that is the reason.
///
/// ```
/// use intake::{why_not, List, Why};
///
/// let rule = [0x13, 3, 1, 1, 0, 0, 0, 1, 2, 0, 0, 0, 1, 3, 0, 0, 0]; // subset(1, 2, 3)
/// match why_not(&rule, List::new(&[1, 2, 1]).unwrap()) {
///     Why::Elements(group) => assert!(group.places().eq([0, 2])), // both can only be given to member 0
///     other => panic!("{other:?}"),
/// }
/// ```
pub fn why_not(rule: &[u8], list: List<'_>) -> Why {
    let (number, mask) = library::why_not(rule, list.elements());
    reason(rule, number, mask)
}

/// The same for a list of floats and a rule for floats.
pub fn why_not_floats(rule: &[u8], list: FloatList<'_>) -> Why {
    let (number, mask) = library::why_not_floats(rule, list.elements());
    reason(rule, number, mask)
}

fn reason(rule: &[u8], number: u8, mask: u32) -> Why {
    match (number, NonZeroU32::new(mask)) {
        (DONE, _) => Why::Matched,
        (NO_MATCH, None) => Why::NoMatch,
        (NO_MATCH, Some(mask)) if is_subset(rule) => Why::Elements(Group::of(mask)),
        (NO_MATCH, Some(mask)) => Why::Members(Group::of(mask)),
        (number, _) => Why::Refused(Refusal::of(number)),
    }
}

/// Whether the body of an accepted rule is a subset. It stands at the front, or after a sheet, a length attribute and a type, of which each may be missing.
fn is_subset(rule: &[u8]) -> bool {
    const SHEET: u8 = 0x32;
    const SHEET_SIZE: usize = 2;
    const LENGTH: u8 = 0x30;
    const BOUNDS_SIZE: usize = 3;
    const TYPE: u8 = 0x31;
    const TYPE_SIZE: usize = 9;
    const SUBSET: u8 = 0x13;
    let mut body = 0;
    if rule.get(body) == Some(&SHEET) {
        body += SHEET_SIZE;
    }
    if rule.get(body) == Some(&LENGTH) {
        body += BOUNDS_SIZE;
    }
    if rule.get(body) == Some(&TYPE) {
        body += TYPE_SIZE;
    }
    rule.get(body) == Some(&SUBSET)
}

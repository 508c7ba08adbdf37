//! What the functions take and give: values that can't have a wrong length.

use crate::{FORM_MOST, LIST_MOST};
use std::error::Error;
use std::fmt;
use std::num::NonZeroU32;
use std::ops::Deref;

/// A list of at most [`LIST_MOST`] elements: integers, or, as a [`FloatList`], floats.
#[derive(Clone, Copy, Debug, PartialEq, Eq)]
pub struct List<'a, T = i32>(&'a [T]);

/// A list of floats. Every `f64` can be an element, a NaN too.
pub type FloatList<'a> = List<'a, f64>;

impl<'a, T: Copy> List<'a, T> {
    /// The list of these elements, or `None` where they are too many.
    pub fn new(elements: &'a [T]) -> Option<List<'a, T>> {
        (elements.len() <= LIST_MOST).then_some(List(elements))
    }

    /// Its elements.
    pub fn elements(self) -> &'a [T] {
        self.0
    }

    /// A witness for this list that the judge can look at: for each element the member that it is given to. `None` where there is not one
    /// member for each element.
    pub fn offer(self, members: &'a [u8]) -> Option<Offer<'a, T>> {
        let list = self;
        (members.len() == list.0.len()).then_some(Offer { list, members })
    }
}

/// A list, and for each of its elements a member: made by [`List::offer`].
#[derive(Clone, Copy, Debug, PartialEq, Eq)]
pub struct Offer<'a, T = i32> {
    list: List<'a, T>,
    members: &'a [u8],
}

impl<'a, T: Copy> Offer<'a, T> {
    /// The list that it is for.
    pub fn list(self) -> List<'a, T> {
        self.list
    }

    /// The member of each element.
    pub fn members(self) -> &'a [u8] {
        self.members
    }
}

/// For each element of the list that matched, the member that it is given to.
#[derive(Clone, Copy, PartialEq, Eq)]
pub struct Witness {
    room: [u8; LIST_MOST],
    length: usize,
}

impl Witness {
    /// The bytes at the front of the room, one for each element of a list of this length.
    pub(crate) fn at_front(room: [u8; LIST_MOST], length: usize) -> Witness {
        Witness { room, length }
    }
}

impl Deref for Witness {
    type Target = [u8];

    fn deref(&self) -> &[u8] {
        &self.room[..self.length]
    }
}

impl fmt::Debug for Witness {
    fn fmt(&self, f: &mut fmt::Formatter<'_>) -> fmt::Result {
        f.debug_tuple("Witness").field(&&**self).finish()
    }
}

/// The bytes of a normal form.
#[derive(Clone, Copy, PartialEq, Eq)]
pub struct Form {
    room: [u8; FORM_MOST],
    length: usize,
}

impl Form {
    /// The first bytes of the room. The library gives no length over that of the room.
    pub(crate) fn at_front(room: [u8; FORM_MOST], length: usize) -> Form {
        Form { room, length }
    }
}

impl Deref for Form {
    type Target = [u8];

    fn deref(&self) -> &[u8] {
        &self.room[..self.length]
    }
}

impl fmt::Debug for Form {
    fn fmt(&self, f: &mut fmt::Formatter<'_>) -> fmt::Result {
        f.debug_tuple("Form").field(&&**self).finish()
    }
}

/// Some members of a rule, or some elements of a list: at least one.
#[derive(Clone, Copy, Debug, PartialEq, Eq)]
pub struct Group(NonZeroU32);

impl Group {
    pub(crate) fn of(mask: NonZeroU32) -> Group {
        Group(mask)
    }

    /// The group as a mask: bit i stands for member i, or for element i.
    pub fn mask(self) -> u32 {
        self.0.get()
    }

    /// The places of the group, in ascending order.
    pub fn places(self) -> impl Iterator<Item = usize> {
        (0..LIST_MOST).filter(move |place| self.mask() >> place & 1 == 1)
    }
}

/// Why bytes are no rule, a list is not of its type, or two forms have no meeting, by its number in `docs/RULES.md`.
#[derive(Clone, Copy, Debug, PartialEq, Eq, Hash)]
#[repr(u8)]
pub enum Refusal {
    /// It has over 4,096 bytes.
    TooLong = 2,
    /// Bytes end where a kind or a body is due.
    Missing = 3,
    /// A kind is unknown, or not allowed at its place.
    BadKind = 4,
    /// A count is outside its range.
    BadCount = 5,
    /// Lower is above upper, or min or max is outside its range, or min is above max.
    BadBounds = 6,
    /// An element template stands at depth 9.
    TooDeep = 7,
    /// There is a 33rd member, a 65th leaf, of the result of a meeting too, or a second any-elements in one set of or permutation.
    TooMany = 8,
    /// A superset has a length min below n, or a subset a length max above n.
    LengthClash = 9,
    /// Bytes are left after the template.
    LeftOver = 10,
    /// A float of the rule is a NaN. Only a rule for floats is refused so.
    NotANumber = 14,
    /// A form that is to meet another is no normal form under the type. Only a meeting is refused so.
    NoNormalForm = 15,
    /// A value or a range of the rule reaches outside its type.
    LeafOutside = 16,
    /// An element of the list is outside the type of the rule.
    ElementOutside = 17,
    /// The sheet of the rule is neither 1 nor 2.
    BadSheet = 20,
}

impl Refusal {
    /// Its number.
    pub fn number(self) -> u8 {
        self as u8
    }

    /// The refusal of this number. No other is given: 0 and 1 are no refusals, and the lengths that 11, 12 and 13 stand for can't be handed
    /// over. A build without debug assertions would take such a number for a refusal all the same, and never for a match.
    pub(crate) fn of(number: u8) -> Refusal {
        match number {
            2 => Refusal::TooLong,
            3 => Refusal::Missing,
            4 => Refusal::BadKind,
            5 => Refusal::BadCount,
            6 => Refusal::BadBounds,
            7 => Refusal::TooDeep,
            8 => Refusal::TooMany,
            9 => Refusal::LengthClash,
            14 => Refusal::NotANumber,
            15 => Refusal::NoNormalForm,
            16 => Refusal::LeafOutside,
            17 => Refusal::ElementOutside,
            20 => Refusal::BadSheet,
            _ => {
                debug_assert_eq!(number, 10, "the library gives no such number");
                Refusal::LeftOver
            }
        }
    }
}

impl fmt::Display for Refusal {
    fn fmt(&self, f: &mut fmt::Formatter<'_>) -> fmt::Result {
        f.write_str(match self {
            Refusal::TooLong => "the template has over 4,096 bytes",
            Refusal::Missing => "bytes end where a kind or a body is due",
            Refusal::BadKind => "a kind is unknown, or not allowed at its place",
            Refusal::BadCount => "a count is outside its range",
            Refusal::BadBounds => "bounds are outside their range, or the lower is above the upper",
            Refusal::TooDeep => "an element template stands at depth 9",
            Refusal::TooMany => "there is a member, a leaf or an any-elements too many",
            Refusal::LengthClash => "the length attribute leaves no list to the superset or subset",
            Refusal::LeftOver => "bytes are left after the template",
            Refusal::NotANumber => "a float of the template is a NaN",
            Refusal::NoNormalForm => "an input of the meeting is no normal form",
            Refusal::LeafOutside => "a value or a range of the template reaches outside its type",
            Refusal::ElementOutside => "an element of the list is outside the type of the template",
            Refusal::BadSheet => "the sheet of the template is neither 1 nor 2",
        })
    }
}

impl Error for Refusal {}

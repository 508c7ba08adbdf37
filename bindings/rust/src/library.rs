//! The functions of the static library, and the only place with `unsafe`. What each reads and writes is said in `include/intake.h`.
//!
//! Of every call below: each pointer comes from a slice or an array and stands beside its length, so it is valid for it and aligned. What is
//! written is borrowed exclusively, so it overlaps nothing else and nobody looks at it meanwhile. No pointer is kept.

use crate::{FORM_MOST, LIST_MOST};

extern "C" {
    fn intake_match(
        template: *const u8,
        template_length: usize,
        list: *const i32,
        list_length: usize,
        room: *mut u8,
        room_length: usize,
    ) -> u8;

    fn intake_judge(
        template: *const u8,
        template_length: usize,
        list: *const i32,
        list_length: usize,
        witness: *const u8,
        witness_length: usize,
    ) -> u8;

    fn intake_normalise(
        template: *const u8,
        template_length: usize,
        room: *mut u8,
        room_length: usize,
        length: *mut usize,
    ) -> u8;

    fn intake_normalise_typed(
        template: *const u8,
        template_length: usize,
        lower: i32,
        upper: i32,
        room: *mut u8,
        room_length: usize,
        length: *mut usize,
    ) -> u8;

    fn intake_meeting(
        first: *const u8,
        first_length: usize,
        second: *const u8,
        second_length: usize,
        lower: i32,
        upper: i32,
        room: *mut u8,
        room_length: usize,
        length: *mut usize,
    ) -> u8;

    fn intake_why_not(
        template: *const u8,
        template_length: usize,
        list: *const i32,
        list_length: usize,
        group: *mut u32,
    ) -> u8;

    fn intake_match_floats(
        template: *const u8,
        template_length: usize,
        list: *const f64,
        list_length: usize,
        room: *mut u8,
        room_length: usize,
    ) -> u8;

    fn intake_judge_floats(
        template: *const u8,
        template_length: usize,
        list: *const f64,
        list_length: usize,
        witness: *const u8,
        witness_length: usize,
    ) -> u8;

    fn intake_why_not_floats(
        template: *const u8,
        template_length: usize,
        list: *const f64,
        list_length: usize,
        group: *mut u32,
    ) -> u8;
}

/// The number; with 0 the witness is at the front of the room.
pub fn match_list(template: &[u8], list: &[i32], room: &mut [u8; LIST_MOST]) -> u8 {
    // SAFETY: as said above.
    unsafe {
        intake_match(
            template.as_ptr(),
            template.len(),
            list.as_ptr(),
            list.len(),
            room.as_mut_ptr(),
            room.len(),
        )
    }
}

/// The number.
pub fn judge(template: &[u8], list: &[i32], witness: &[u8]) -> u8 {
    // SAFETY: as said above.
    unsafe {
        intake_judge(
            template.as_ptr(),
            template.len(),
            list.as_ptr(),
            list.len(),
            witness.as_ptr(),
            witness.len(),
        )
    }
}

/// The number, and how many bytes at the front of the room are the form.
pub fn normalise(template: &[u8], room: &mut [u8; FORM_MOST]) -> (u8, usize) {
    let mut length = 0;
    // SAFETY: as said above; `length` is a local of its own.
    let number = unsafe {
        intake_normalise(
            template.as_ptr(),
            template.len(),
            room.as_mut_ptr(),
            room.len(),
            &mut length,
        )
    };
    (number, length)
}

/// Of the type from `lower` to `upper`: the number, and how many bytes at the front of the room are the form.
pub fn normalise_typed(
    template: &[u8],
    lower: i32,
    upper: i32,
    room: &mut [u8; FORM_MOST],
) -> (u8, usize) {
    let mut length = 0;
    // SAFETY: as said above; `length` is a local of its own.
    let number = unsafe {
        intake_normalise_typed(
            template.as_ptr(),
            template.len(),
            lower,
            upper,
            room.as_mut_ptr(),
            room.len(),
            &mut length,
        )
    };
    (number, length)
}

/// Of two normal forms of the type from `lower` to `upper`: the number, and how many bytes at the front of the room are their meeting. The room
/// may be too short: the tests below lend such a one.
pub fn meeting(
    first: &[u8],
    second: &[u8],
    lower: i32,
    upper: i32,
    room: &mut [u8],
) -> (u8, usize) {
    let mut length = 0;
    // SAFETY: as said above; `length` is a local of its own.
    let number = unsafe {
        intake_meeting(
            first.as_ptr(),
            first.len(),
            second.as_ptr(),
            second.len(),
            lower,
            upper,
            room.as_mut_ptr(),
            room.len(),
            &mut length,
        )
    };
    (number, length)
}

/// The number, and the mask of the group.
pub fn why_not(template: &[u8], list: &[i32]) -> (u8, u32) {
    let mut group = 0;
    // SAFETY: as said above; `group` is a local of its own.
    let number = unsafe {
        intake_why_not(
            template.as_ptr(),
            template.len(),
            list.as_ptr(),
            list.len(),
            &mut group,
        )
    };
    (number, group)
}

/// Of floats: the number; with 0 the witness is at the front of the room.
pub fn match_floats(template: &[u8], list: &[f64], room: &mut [u8; LIST_MOST]) -> u8 {
    // SAFETY: as said above.
    unsafe {
        intake_match_floats(
            template.as_ptr(),
            template.len(),
            list.as_ptr(),
            list.len(),
            room.as_mut_ptr(),
            room.len(),
        )
    }
}

/// Of floats: the number.
pub fn judge_floats(template: &[u8], list: &[f64], witness: &[u8]) -> u8 {
    // SAFETY: as said above.
    unsafe {
        intake_judge_floats(
            template.as_ptr(),
            template.len(),
            list.as_ptr(),
            list.len(),
            witness.as_ptr(),
            witness.len(),
        )
    }
}

/// Of floats: the number, and the mask of the group.
pub fn why_not_floats(template: &[u8], list: &[f64]) -> (u8, u32) {
    let mut group = 0;
    // SAFETY: as said above; `group` is a local of its own.
    let number = unsafe {
        intake_why_not_floats(
            template.as_ptr(),
            template.len(),
            list.as_ptr(),
            list.len(),
            &mut group,
        )
    };
    (number, group)
}

#[cfg(test)]
mod tests {
    use super::meeting;

    const UNTOUCHED: u8 = 165;

    /// (0..9)
    const DIGITS: [u8; 9] = [2, 0, 0, 0, 0, 9, 0, 0, 0];

    /// The number and the length that the meeting gives in a room of `length` bytes, and the room afterwards.
    fn met(first: &[u8], second: &[u8], length: usize) -> (u8, usize, Vec<u8>) {
        let mut room = vec![UNTOUCHED; length];
        let (number, written) = meeting(first, second, i32::MIN, i32::MAX, &mut room);
        (number, written, room)
    }

    #[test]
    fn a_meeting_is_at_the_front_of_its_room() {
        assert_eq!(met(&DIGITS, &[3], 9), (0, 9, DIGITS.to_vec()));
        let longer = [&DIGITS[..], &[UNTOUCHED]].concat();
        assert_eq!(met(&[3], &DIGITS, 10), (0, 9, longer));
    }

    #[test]
    fn a_refused_meeting_leaves_its_room() {
        let no_form = [4, 1, 3];
        let rows: [(&[u8], &[u8], usize, u8); 7] = [
            (&DIGITS, &[3], 8, 12),
            (&DIGITS, &[3], 0, 12),
            (&no_form, &[3], 0, 15),
            (&[3], &no_form, 578, 15),
            (&no_form, &[0xff], 578, 4),
            (&[3, 3], &[0xff], 578, 10),
            (&[], &[3], 578, 3),
        ];
        for (first, second, length, number) in rows {
            let room = vec![UNTOUCHED; length];
            assert_eq!(met(first, second, length), (number, 0, room));
        }
    }
}

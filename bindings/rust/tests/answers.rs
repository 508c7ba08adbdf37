//! The wrapper on the static library: the examples of README.md, each refusal, and the lengths that the types keep out.

use intake::{judge, judge_floats, match_floats, match_list, why_not, why_not_floats};
use intake::{meeting, normalise, normalise_typed};
use intake::{Answer, FloatList, List, Refusal, Verdict, Why, FORM_MOST, LIST_MOST, TEMPLATE_MOST};

/// set of {any value, 1}
const ANY_AND_ONE: [u8; 8] = [0x11, 2, 3, 1, 1, 0, 0, 0];

fn list(elements: &[i32]) -> List<'_> {
    List::new(elements).unwrap()
}

fn witness(rule: &[u8], elements: &[i32]) -> Vec<u8> {
    match match_list(rule, list(elements)) {
        Answer::Matched(witness) => witness.to_vec(),
        other => panic!("{other:?}"),
    }
}

fn judged(rule: &[u8], elements: &[i32], members: &[u8]) -> Verdict {
    judge(rule, list(elements).offer(members).unwrap())
}

fn single(value: i32) -> Vec<u8> {
    [&[1], &value.to_le_bytes()[..]].concat()
}

fn range(lower: i32, upper: i32) -> Vec<u8> {
    [&[2], &lower.to_le_bytes()[..], &upper.to_le_bytes()[..]].concat()
}

fn floats(elements: &[f64]) -> FloatList<'_> {
    FloatList::new(elements).unwrap()
}

fn float(value: f64) -> Vec<u8> {
    [&[6], &value.to_le_bytes()[..]].concat()
}

fn float_range(lower: f64, upper: f64) -> Vec<u8> {
    [&[7], &lower.to_le_bytes()[..], &upper.to_le_bytes()[..]].concat()
}

/// The head of a rule whose elements are the integers from `lower` to `upper`.
fn typed(lower: i32, upper: i32) -> Vec<u8> {
    [&[0x31], &lower.to_le_bytes()[..], &upper.to_le_bytes()[..]].concat()
}

/// An element template or a body of this kind with these parts.
fn of(kind: u8, parts: &[Vec<u8>]) -> Vec<u8> {
    [vec![kind, parts.len() as u8], parts.concat()].concat()
}

#[test]
fn the_first_witness_is_given_and_passes() {
    assert_eq!(witness(&ANY_AND_ONE, &[1, 5]), [1, 0]);
    assert_eq!(judged(&ANY_AND_ONE, &[1, 5], &[1, 0]), Verdict::Obeys);
    assert_eq!(judged(&ANY_AND_ONE, &[1, 5], &[0, 1]), Verdict::DoesNotObey);
    assert_eq!(match_list(&ANY_AND_ONE, list(&[5, 5])), Answer::NoMatch);
}

#[test]
fn an_empty_list_has_an_empty_witness() {
    let nothing = of(0x10, &[]);
    assert_eq!(witness(&nothing, &[]), []);
    assert_eq!(judged(&nothing, &[], &[]), Verdict::Obeys);
}

#[test]
fn a_list_of_32_is_taken_and_one_of_33_can_not_be_made() {
    let rule = of(0x12, &[single(7)]);
    let mut elements = vec![0; LIST_MOST];
    elements[31] = 7;
    assert_eq!(witness(&rule, &elements).len(), LIST_MOST);
    elements.push(0);
    assert_eq!(List::new(&elements), None);
}

#[test]
fn an_offer_has_one_member_for_each_element() {
    assert_eq!(list(&[1, 5]).offer(&[0]), None);
    assert_eq!(list(&[1, 5]).offer(&[0, 1, 2]), None);
    assert_eq!(list(&[]).offer(&[0]), None);
}

#[test]
fn each_refusal_has_its_number() {
    let mut deep = vec![3];
    for _ in 0..8 {
        deep = of(4, &[deep]);
    }
    let clash = [vec![0x30, 0, 32], of(0x12, &[single(1)])].concat();
    let rows = [
        (vec![0; TEMPLATE_MOST + 1], Refusal::TooLong, 2),
        (vec![], Refusal::Missing, 3),
        (vec![0x99], Refusal::BadKind, 4),
        (vec![0x12, 0], Refusal::BadCount, 5),
        (of(0x10, &[range(2, 1)]), Refusal::BadBounds, 6),
        (of(0x10, &[of(5, &[deep])]), Refusal::TooDeep, 7),
        (
            of(0x11, &[vec![0x20, 0, 1], vec![0x20, 0, 1]]),
            Refusal::TooMany,
            8,
        ),
        (clash, Refusal::LengthClash, 9),
        ([of(0x10, &[]), vec![0]].concat(), Refusal::LeftOver, 10),
        (
            [typed(0, 23), of(0x10, &[single(24)])].concat(),
            Refusal::LeafOutside,
            16,
        ),
        (
            [typed(2, 23), of(0x10, &[vec![3]])].concat(),
            Refusal::ElementOutside,
            17,
        ),
        (
            [vec![0x32, 3], of(0x10, &[])].concat(),
            Refusal::BadSheet,
            20,
        ),
    ];
    for (rule, refusal, number) in rows {
        assert_eq!(match_list(&rule, list(&[1])), Answer::Refused(refusal));
        assert_eq!(judged(&rule, &[1], &[0]), Verdict::Refused(refusal));
        assert_eq!(why_not(&rule, list(&[1])), Why::Refused(refusal));
        assert_eq!(refusal.number(), number);
        assert!(!refusal.to_string().is_empty());
    }
}

#[test]
fn equal_sets_have_one_form() {
    let form = normalise(&of(4, &[single(3), single(1), single(2)])).unwrap();
    assert_eq!(*form, range(1, 3)[..]);
    assert_eq!(normalise(&form), Ok(form));
    assert_eq!(normalise(&of(5, &[of(5, &[range(1, 3)])])), Ok(form));
    assert_eq!(normalise(&[1, 2]), Err(Refusal::Missing));
    assert_eq!(normalise(&[3, 3]), Err(Refusal::LeftOver));
}

#[test]
fn a_form_is_that_of_its_type() {
    let (morning, afternoon) = (range(0, 11), range(12, 23));
    let form = normalise_typed(&morning, 0, 23).unwrap();
    assert_eq!(*form, of(5, &[afternoon.clone()])[..]);
    assert_eq!(normalise_typed(&form, 0, 23), Ok(form));
    let not_morning = of(5, &[morning.clone()]);
    assert_eq!(
        *normalise_typed(&not_morning, 0, 23).unwrap(),
        afternoon[..]
    );
    assert_eq!(*normalise_typed(&range(0, 23), 0, 23).unwrap(), [3]);
    assert_eq!(*normalise_typed(&single(7), 7, 7).unwrap(), [3]);
    let (least, greatest) = (i32::MIN, i32::MAX);
    assert_eq!(
        normalise_typed(&morning, least, greatest),
        normalise(&morning)
    );
    assert_eq!(
        normalise_typed(&single(24), 0, 23),
        Err(Refusal::LeafOutside)
    );
    assert_eq!(normalise_typed(&[], 5, 4), Err(Refusal::BadBounds));
    assert_eq!(normalise_typed(&[], 4, 5), Err(Refusal::Missing));
}

#[test]
fn a_meeting_is_the_form_of_what_both_match() {
    let form = |template: &[u8]| normalise_typed(template, 0, 23).unwrap();
    let (morning, open) = (form(&range(0, 11)), form(&range(6, 17)));
    let both = form(&range(6, 11));
    assert_eq!(meeting(&morning, &open, 0, 23), Ok(both));
    assert_eq!(meeting(&open, &morning, 0, 23), Ok(both));
    assert_eq!(meeting(&open, &open, 0, 23), Ok(open));
    assert_eq!(meeting(&open, &[3], 0, 23), Ok(open));
    let afternoon = form(&range(12, 23));
    let nothing = form(&of(5, &[vec![3]]));
    assert_eq!(meeting(&morning, &afternoon, 0, 23), Ok(nothing));
    let but = |hour| form(&of(5, &[single(hour)]));
    let neither = form(&of(5, &[single(5), single(7)]));
    assert_eq!(meeting(&but(7), &but(5), 0, 23), Ok(neither));
}

#[test]
fn refusals_of_a_meeting_come_in_their_order() {
    let (everything, no_form) = (vec![3], of(4, &[vec![3]]));
    let long = of(4, &[of(4, &vec![vec![3]; 64]), vec![3]]);
    let too_long = vec![3; TEMPLATE_MOST + 1];
    let rows = [
        (&no_form, &everything, Refusal::NoNormalForm, 15),
        (&everything, &no_form, Refusal::NoNormalForm, 15),
        (&no_form, &long, Refusal::TooMany, 8),
        (&long, &too_long, Refusal::TooMany, 8),
        (&no_form, &too_long, Refusal::TooLong, 2),
        (&everything, &single(24), Refusal::LeafOutside, 16),
        (&single(24), &vec![0xff], Refusal::LeafOutside, 16),
        (&no_form, &vec![0xff], Refusal::BadKind, 4),
    ];
    for (first, second, refusal, number) in rows {
        assert_eq!(meeting(first, second, 0, 23), Err(refusal));
        assert_eq!(refusal.number(), number);
        assert!(!refusal.to_string().is_empty());
    }
    let (least, greatest) = (i32::MIN, i32::MAX);
    assert_eq!(meeting(&[3], &[3], 5, 4), Err(Refusal::BadBounds));
    let morning = range(0, 11);
    assert_eq!(meeting(&morning, &[3], 0, 23), Err(Refusal::NoNormalForm));
    assert_eq!(
        *meeting(&morning, &[3], least, greatest).unwrap(),
        morning[..]
    );
}

#[test]
fn a_meeting_has_at_most_64_leaves() {
    let all_but = |numbers: Vec<i32>| of(5, &numbers.into_iter().map(single).collect::<Vec<_>>());
    let (least, greatest) = (i32::MIN, i32::MAX);
    let fours = all_but((1..=32).map(|i| 4 * i).collect());
    let between = all_but((0..32).map(|i| 4 * i + 2).collect());
    let evens = all_but((1..=64).map(|i| 2 * i).collect());
    assert_eq!(
        *meeting(&fours, &between, least, greatest).unwrap(),
        evens[..]
    );
    let fours = all_but((0..=32).map(|i| 4 * i).collect());
    assert_eq!(
        meeting(&fours, &between, least, greatest),
        Err(Refusal::TooMany)
    );
    let ranges: Vec<_> = (0..64).map(|i| range(10 * i, 10 * i + 5)).collect();
    let longest = of(4, &ranges);
    assert_eq!(
        *meeting(&longest, &longest, least, greatest).unwrap(),
        longest[..]
    );
}

#[test]
fn a_list_is_of_the_type_of_its_rule() {
    let rule = [typed(0, 23), of(0x10, &[of(5, &[range(0, 11)])])].concat();
    let outside = Refusal::ElementOutside;
    assert_eq!(witness(&rule, &[12]), [0]);
    assert_eq!(match_list(&rule, list(&[11])), Answer::NoMatch);
    for other in [24, 40, -1, i32::MIN, i32::MAX] {
        assert_eq!(match_list(&rule, list(&[other])), Answer::Refused(outside));
        assert_eq!(judged(&rule, &[other], &[0]), Verdict::Refused(outside));
        assert_eq!(why_not(&rule, list(&[other])), Why::Refused(outside));
    }
    let reversed = [typed(23, 0), of(0x10, &[])].concat();
    let refused = Answer::Refused(Refusal::BadBounds);
    assert_eq!(match_list(&reversed, list(&[])), refused);
    let of_floats = [typed(0, 23), of(0x10, &[])].concat();
    let refused = Answer::Refused(Refusal::BadKind);
    assert_eq!(match_floats(&of_floats, floats(&[])), refused);
}

#[test]
fn a_group_is_found_behind_every_head() {
    let few = of(0x13, &[single(1), vec![3]]);
    for heads in [
        vec![],
        vec![0x30, 0, 2],
        typed(1, 3),
        [vec![0x30, 0, 2], typed(1, 3)].concat(),
        vec![0x32, 2],
        [vec![0x32, 2, 0x30, 0, 2], typed(1, 3)].concat(),
    ] {
        let rule = [heads.clone(), few.clone()].concat();
        match why_not(&rule, list(&[2, 3])) {
            Why::Elements(group) => assert!(group.places().eq([0, 1])),
            other => panic!("{heads:?}: {other:?}"),
        }
    }
}

#[test]
fn a_subset_is_read_plainly_under_sheet_1() {
    let few = of(0x13, &[single(1), single(2)]);
    let old = [vec![0x32, 1], few.clone()].concat();
    let new = [vec![0x32, 2], few].concat();
    assert_eq!(witness(&old, &[2, 1, 2]), [1, 0, 1]);
    assert_eq!(match_list(&new, list(&[2, 1, 2])), Answer::NoMatch);
    assert_eq!(judged(&old, &[2, 2], &[1, 1]), Verdict::Obeys);
    assert_eq!(judged(&new, &[2, 2], &[1, 1]), Verdict::DoesNotObey);
    assert_eq!(judged(&old, &[2], &[255]), Verdict::DoesNotObey);
    assert_eq!(why_not(&old, list(&[3])), Why::NoMatch);
    assert!(matches!(why_not(&new, list(&[3])), Why::Elements(_)));
}

#[test]
fn the_longest_form_fits() {
    let ranges: Vec<_> = (0..64).map(|i| range(10 * i, 10 * i + 5)).collect();
    let form = normalise(&of(4, &ranges)).unwrap();
    assert_eq!(form.len(), FORM_MOST);
    assert_eq!(*form, of(4, &ranges)[..]);
}

#[test]
fn a_group_is_of_members_or_of_elements() {
    let sensors = of(0x12, &[range(10, 19), single(12), range(20, 29)]);
    match why_not(&sensors, list(&[12, 25])) {
        Why::Members(group) => assert!(group.places().eq([0, 1]) && group.mask() == 3),
        other => panic!("{other:?}"),
    }
    let few = of(0x13, &[single(1), single(2), single(3)]);
    let few_by_length = [vec![0x30, 0, 3], few.clone()].concat();
    for rule in [&few, &few_by_length] {
        match why_not(rule, list(&[1, 2, 1])) {
            Why::Elements(group) => assert!(group.places().eq([0, 2])),
            other => panic!("{other:?}"),
        }
    }
    assert_eq!(why_not(&sensors, list(&[12, 13, 25])), Why::Matched);
    assert_eq!(why_not(&ANY_AND_ONE, list(&[5, 5])), Why::NoMatch);
    assert_eq!(why_not(&few_by_length, list(&[1, 2, 3, 4])), Why::NoMatch);
}

#[test]
fn a_pressure_is_within_its_bounds() {
    let rule = of(0x10, &[float_range(870.0, 1085.0)]);
    for pressure in [870.0, 1013.25, 1085.0] {
        match match_floats(&rule, floats(&[pressure])) {
            Answer::Matched(witness) => assert_eq!(*witness, [0]),
            other => panic!("{other:?}"),
        }
    }
    for other in [869.5, 1085.5, f64::INFINITY, f64::NAN, -f64::NAN] {
        assert_eq!(match_floats(&rule, floats(&[other])), Answer::NoMatch);
    }
    let pressure = [1013.25];
    let offer = |members| floats(&pressure).offer(members).unwrap();
    assert_eq!(judge_floats(&rule, offer(&[0])), Verdict::Obeys);
    assert_eq!(judge_floats(&rule, offer(&[255])), Verdict::DoesNotObey);
    assert_eq!(floats(&pressure).offer(&[0, 0]), None);
}

#[test]
fn a_nan_in_a_list_is_an_element() {
    let rule = of(0x11, &[vec![3], of(5, &[float(0.0)])]);
    match match_floats(&rule, floats(&[f64::NAN, -0.0])) {
        Answer::Matched(witness) => assert_eq!(*witness, [1, 0]),
        other => panic!("{other:?}"),
    }
    let few = of(0x13, &[float(0.0), vec![3]]);
    match why_not_floats(&few, floats(&[f64::NAN, 0.0, f64::NAN])) {
        Why::Elements(group) => assert!(group.places().eq([0, 2])),
        other => panic!("{other:?}"),
    }
    let two = of(0x12, &[float(0.0), float(-0.0)]);
    match why_not_floats(&two, floats(&[0.0, f64::NAN])) {
        Why::Members(group) => assert!(group.places().eq([0, 1])),
        other => panic!("{other:?}"),
    }
}

#[test]
fn a_nan_in_a_rule_is_refused() {
    let (list, nan) = ([1.0], Refusal::NotANumber);
    for leaf in [
        float(f64::NAN),
        float_range(f64::NAN, 1.0),
        float_range(1.0, f64::NAN),
    ] {
        let rule = of(0x10, &[leaf]);
        let offer = floats(&list).offer(&[0]).unwrap();
        assert_eq!(match_floats(&rule, floats(&list)), Answer::Refused(nan));
        assert_eq!(judge_floats(&rule, offer), Verdict::Refused(nan));
        assert_eq!(why_not_floats(&rule, floats(&list)), Why::Refused(nan));
    }
    assert_eq!(nan.number(), 14);
    assert!(!nan.to_string().is_empty());
}

#[test]
fn a_rule_is_for_one_family() {
    let refused = Answer::Refused(Refusal::BadKind);
    assert_eq!(match_list(&of(0x10, &[float(1.0)]), list(&[1])), refused);
    assert_eq!(
        match_floats(&of(0x10, &[single(1)]), floats(&[1.0])),
        refused
    );
}

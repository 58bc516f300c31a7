//! Lists, queues, boxes and texts.
use super::rattle_std::alloc::Global;
use super::rattle_std::collections::VecDeque;
use super::rattle_std::smallvec::SmallVec;
use super::rattle_std::{Box, String, Vec, format_in, vec_in};
use super::{Drawn, OPERATIONS};
use std::collections;

#[test]
fn a_vector_is_rusts() {
    let mut drawn = Drawn::of(1);
    let (mut list, mut wanted) = (Vec::new(Global), std::vec::Vec::new());
    for number in 0..OPERATIONS {
        let place = drawn.below(wanted.len() as u64 + 1) as usize;
        match drawn.below(12) {
            0 => assert_eq!(list.pop(), wanted.pop()),
            1 => {
                list.insert(place, number).unwrap();
                wanted.insert(place, number);
            }
            2 if place < wanted.len() => assert_eq!(list.remove(place), wanted.remove(place)),
            3 if wanted.len() > 500 => {
                list.truncate(place);
                wanted.truncate(place);
            }
            4 => {
                list.extend_from_slice(&[number; 3]).unwrap();
                wanted.extend_from_slice(&[number; 3]);
            }
            5 if wanted.len() > 300 => {
                list.retain(|item| item % 3 != 0);
                wanted.retain(|item| item % 3 != 0);
            }
            6 => {
                list.dedup();
                wanted.dedup();
            }
            7 if wanted.len() > 400 => {
                list.dedup_by_key(|item| *item / 2);
                wanted.dedup_by_key(|item| *item / 2);
            }
            8 if wanted.len() < 600 => {
                list.resize(wanted.len() + 2, number).unwrap();
                wanted.resize(wanted.len() + 2, number);
            }
            9 if place < wanted.len() => assert!(list.drain(place..).eq(wanted.drain(place..))),
            _ => {
                list.push(number).unwrap();
                wanted.push(number);
            }
        }
        assert_eq!(list.as_slice(), wanted.as_slice());
    }
    assert_eq!(list.try_clone().unwrap().as_slice(), wanted.as_slice());
}

#[test]
fn vectors_are_made_of_what_is_given() {
    assert_eq!(vec_in![Global; 7; 3].unwrap().as_slice(), [7, 7, 7]);
    assert_eq!(Vec::from_array(Global, [1, 2]).unwrap().as_slice(), [1, 2]);
    assert_eq!(Vec::from_slice(Global, &[3, 4, 5]).unwrap().as_slice(), [3, 4, 5]);
    let mut list = Vec::with_capacity(Global, 2).unwrap();
    list.push_reserved(8);
    list.push_reserved(9);
    assert_eq!(list.into_iter().collect::<std::vec::Vec<_>>(), [8, 9]);
}

#[test]
fn a_small_vector_takes_as_many_items_as_its_type_says() {
    let mut list: SmallVec<u64, 5> = SmallVec::new(Global);
    for number in 0..5 {
        assert_eq!(list.len() as u64, number);
        list.push(number).unwrap();
        list.as_mut_slice()[0] += 1;
    }
    assert!(list.push(5).is_err());
    assert_eq!(list.as_slice(), [5, 1, 2, 3, 4]);
}

#[test]
fn a_queue_is_rusts() {
    let mut drawn = Drawn::of(2);
    let (mut queue, mut wanted) = (VecDeque::new(Global), collections::VecDeque::new());
    for number in 0..OPERATIONS {
        match drawn.below(20) {
            0 => queue.shrink_to(drawn.below(100) as usize),
            1..=9 => assert_eq!(queue.pop_front(), wanted.pop_front()),
            _ => {
                queue.push_back(number).unwrap();
                wanted.push_back(number);
            }
        }
        assert_eq!((queue.len(), queue.is_empty()), (wanted.len(), wanted.is_empty()));
    }
}

#[test]
fn a_box_holds_its_value() {
    let mut kept = Box::new(Global, (1, "one")).unwrap();
    kept.0 = 2;
    assert_eq!(*kept, (2, "one"));
}

#[test]
fn texts_are_put_together() {
    let mut text = String::from_str(Global, "no").unwrap();
    text.push('ä').unwrap();
    text.push_str("x").unwrap();
    write!(text, "{:>3}", 7).unwrap();
    assert_eq!(text.as_str(), "noäx  7");
    assert_eq!(format_in!(Global; "{}-{text}", 1).unwrap().as_str(), "1-noäx  7");
}

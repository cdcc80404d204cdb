//! The convention of the port's functions, so that both are called alike.

use super::pass::{go_on, WORDS};
use super::{list, translate, Listed, Tables, Translation};
use crate::library::{
    lent, lent_to_write, Function, Library, ListFunction, ANSWERED, NO_ROOM, NO_SUCH_CHOICE,
};

pub const HAND_WRITTEN: Library = Library {
    translate: call_translate,
    search: call_search,
    list: call_list,
};

/// A list made of single searches, each from the root on.
pub const LIST_BY_SEARCHES: ListFunction = call_list_by_searches;

/// A function for each width: four levels then cost what they do alone.
unsafe extern "C" fn call_translate(
    width: u64,
    image: *const u64,
    words: usize,
    base: u64,
    root: u64,
    address: u64,
    out: *mut u64,
    room: usize,
) -> u8 {
    let translate: Function = match width {
        48 => translate_at::<4>,
        57 => translate_at::<5>,
        _ => return NO_SUCH_CHOICE,
    };
    translate(width, image, words, base, root, address, out, room)
}

unsafe extern "C" fn translate_at<const LEVELS: u32>(
    _: u64,
    image: *const u64,
    words: usize,
    base: u64,
    root: u64,
    address: u64,
    out: *mut u64,
    room: usize,
) -> u8 {
    let words = lent(image, words);
    let out = lent_to_write(out, room);
    let answer = match translate::<LEVELS>(Tables { words, base, root }, address) {
        Err(number) => return number,
        Ok(Translation::Mapped {
            physical,
            size,
            rights,
        }) => [0, physical, size, rights],
        Ok(Translation::Absent(level)) => [1, level.into(), 0, 0],
        Ok(Translation::Reserved(level)) => [2, level.into(), 0, 0],
        Ok(Translation::Outside(level)) => [3, level.into(), 0, 0],
    };
    store(answer, out)
}

unsafe extern "C" fn call_search(
    width: u64,
    image: *const u64,
    words: usize,
    base: u64,
    root: u64,
    page: u64,
    out: *mut u64,
    room: usize,
) -> u8 {
    let words = lent(image, words);
    let out = lent_to_write(out, room);
    let tables = Tables { words, base, root };
    let mut answer = [0; WORDS];
    let listed = match width {
        48 => list::<4>(tables, page, &mut [], &mut answer),
        57 => list::<5>(tables, page, &mut [], &mut answer),
        _ => return NO_SUCH_CHOICE,
    };
    match listed {
        Err(number) => number,
        Ok(_) => store(answer, out),
    }
}

macro_rules! list_calls {
    ($($name:ident $list:ident;)*) => {
        $(unsafe extern "C" fn $name(
            width: u64,
            image: *const u64,
            words: usize,
            base: u64,
            root: u64,
            page: u64,
            empty_tables: *mut u8,
            tables: usize,
            answers: *mut u64,
            answers_room: usize,
            out: *mut u64,
            room: usize,
        ) -> u8 {
            let words = lent(image, words);
            let empty = lent_to_write(empty_tables, tables);
            let answers = lent_to_write(answers, answers_room);
            let out = lent_to_write(out, room);
            let tables = Tables { words, base, root };
            match width {
                48 | 57 if out.len() < 3 => NO_ROOM,
                48 => listed($list::<4>(tables, page, empty, answers), out),
                57 => listed($list::<5>(tables, page, empty, answers), out),
                _ => NO_SUCH_CHOICE,
            }
        })*
    };
}

list_calls! {
    call_list list;
    call_list_by_searches list_by_searches;
}

fn listed(answer: Result<Listed, u8>, out: &mut [u64]) -> u8 {
    match answer {
        Err(number) => number,
        Ok(Listed { stored, next }) => {
            store([stored, next.is_none().into(), next.unwrap_or(0)], out)
        }
    }
}

fn list_by_searches<const LEVELS: u32>(
    tables: Tables,
    page: u64,
    empty: &mut [u8],
    answers: &mut [u64],
) -> Result<Listed, u8> {
    let mut listed = list::<LEVELS>(tables, page, empty, &mut [])?;
    for answer in answers.chunks_exact_mut(WORDS) {
        let Some(page) = listed.next else {
            break;
        };
        listed.next = go_on::<LEVELS>(tables, page, empty, answer)?.next;
        listed.stored += 1;
    }
    Ok(listed)
}

fn store<const N: usize>(answer: [u64; N], out: &mut [u64]) -> u8 {
    match out.first_chunk_mut() {
        Some(place) => {
            *place = answer;
            ANSWERED
        }
        None => NO_ROOM,
    }
}

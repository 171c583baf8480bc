//! Calls with bytes that nobody planned, on buffers between forbidden pages.

use calls::generate::{asks_of, changed_text, damaged, noise, runs_of, sheet, special_text};
use calls::generate::{AskCall, CheckCall, RunCall};
use calls::perform::After;
use calls::random::Random;
use reference::{answer, interface};

use crate::compare::{describe_ask, describe_check, describe_run, library_ask, library_check, library_run};
use crate::guard::{Against, Guarded};

const MOST_UNITS: usize = 1_200;
const MOST_LINES: usize = 3_000;

/// Room for every buffer of a call, made once.
pub struct Rooms {
    sheet: Guarded<u8>,
    request: Guarded<u32>,
    text: Guarded<u8>,
    table: Guarded<u32>,
    work: Guarded<u32>,
    answer: Guarded<u8>,
    result: Guarded<u32>,
}

impl Rooms {
    pub fn new() -> Rooms {
        Rooms {
            sheet: Guarded::new(100_000),
            request: Guarded::new(16),
            text: Guarded::new(140_000),
            table: Guarded::new(9_000),
            work: Guarded::new(64 * MOST_UNITS.max(MOST_LINES) + 1_000),
            answer: Guarded::new(140_000),
            result: Guarded::new(16),
        }
    }
}

impl Default for Rooms {
    fn default() -> Rooms {
        Rooms::new()
    }
}

/// Bytes for a sheet: noise, a generated sheet, one damaged, lines of two.
fn any_sheet(random: &mut Random) -> Vec<u8> {
    let (_, mut bytes) = sheet(random.bits());
    match random.below(6) {
        0 => return noise(random),
        1 => {}
        2 => {
            let (_, other) = sheet(random.bits());
            let cut = random.below(bytes.len() + 1);
            bytes.truncate(cut);
            bytes.extend(&other[random.below(other.len() + 1)..]);
        }
        _ => {
            for _ in 0..1 + random.below(4) {
                bytes = damaged(&bytes, random);
            }
        }
    }
    bytes.truncate(90_000);
    bytes
}

/// A sheet and bytes for a text: noise, a text made for a part of the checker, a proof; the last two changed and
/// damaged.
fn any_text(random: &mut Random) -> (Vec<u8>, Vec<u8>) {
    let (sheet, mut text) = if random.one_in(4) {
        special_text(random)
    } else {
        let sheet = match random.below(3) {
            0 => any_sheet(random),
            _ => sheet(random.bits()).1,
        };
        let text = answer(&sheet, 300, 65_535).2;
        (sheet, text)
    };
    if random.one_in(6) {
        text = noise(random);
    }
    for _ in 0..random.below(4) {
        text = if random.one_in(2) {
            damaged(&text, random)
        } else {
            changed_text(&sheet, &text, random)
        };
    }
    text.truncate(130_000);
    (sheet, text)
}

fn against(random: &mut Random) -> Against {
    if random.one_in(3) {
        Against::Before
    } else {
        Against::After
    }
}

/// Runs for one proof and for several, and a check, from a seed; what differs, if anything does, and the codes returned.
pub fn fuzz(seed: u64, rooms: &mut Rooms) -> Result<Vec<String>, String> {
    let random = &mut Random::new(seed);
    let mut codes = Vec::new();
    let bytes = any_sheet(random);
    let tried = 1 + random.below(400) as u32;
    for call in runs_of(&bytes, tried, random) {
        let place = against(random);
        let got = guarded_run(&call, place, rooms);
        let wanted = call.perform(interface::run);
        codes.push(format!("run {}", got.code));
        if let Some(difference) = got.difference(&wanted) {
            return Err(format!("{difference}\n{}", describe_run(&call)));
        }
    }
    for call in asks_of(&bytes, tried, random) {
        let place = against(random);
        let got = guarded_ask(&call, place, rooms);
        codes.push(format!("ask {}", got.code));
        if let Some(difference) = got.difference(&call.perform(interface::ask)) {
            return Err(format!("{difference}\n{}", describe_ask(&call)));
        }
    }
    let (sheet, text) = any_text(random);
    let demanded = reference::api::work_demanded(&text).min(64 * MOST_LINES);
    let call = CheckCall {
        sheet,
        table: 8_192,
        work: demanded - usize::from(demanded > 0 && random.one_in(20)),
        result: random.below(5),
        dirt: random.bits(),
        text,
    };
    let place = against(random);
    let got = guarded_check(&call, place, rooms);
    codes.push(format!("check {}", got.code));
    match got.difference(&call.perform(interface::check)) {
        None => Ok(codes),
        Some(difference) => Err(format!("{difference}\n{}", describe_check(&call))),
    }
}

/// The buffers before the call, put against the forbidden pages.
fn lend<'a, T: crate::guard::Plain>(room: &'a mut Guarded<T>, before: &[T], place: Against) -> &'a mut [T] {
    let buffer = room.lend(before.len(), place);
    buffer.copy_from_slice(before);
    buffer
}

pub fn guarded_run(call: &RunCall, place: Against, rooms: &mut Rooms) -> After {
    guarded(call, place, rooms, |_, sheet, table, work, answer, result| {
        library_run(sheet, call.budget, table, work, answer, result)
    })
}

pub fn guarded_ask(call: &AskCall, place: Against, rooms: &mut Rooms) -> After {
    guarded(&call.run, place, rooms, |room, sheet, table, work, answer, result| {
        room.lend_fixed(&call.request(), place, |request| {
            library_ask(sheet, request, table, work, answer, result)
        })
    })
}

/// A run by a function that may also use the request's room.
fn guarded(
    call: &RunCall,
    place: Against,
    rooms: &mut Rooms,
    run: impl FnOnce(&mut Guarded<u32>, &[u8], &mut [u32], &mut [u32], &mut [u8], &mut [u32]) -> u32,
) -> After {
    let before = call.before();
    let table = lend(&mut rooms.table, &before.table, place);
    let work = lend(&mut rooms.work, &before.work, place);
    let answer = lend(&mut rooms.answer, &before.answer, place);
    let result = lend(&mut rooms.result, &before.result, place);
    let request = &mut rooms.request;
    let code = rooms.sheet.lend_fixed(&call.sheet, place, |sheet| {
        run(request, sheet, table, work, answer, result)
    });
    After {
        code,
        table: table.to_vec(),
        work: work.to_vec(),
        answer: answer.to_vec(),
        result: result.to_vec(),
    }
}

pub fn guarded_check(call: &CheckCall, place: Against, rooms: &mut Rooms) -> After {
    let before = call.before();
    let table = lend(&mut rooms.table, &before.table, place);
    let work = lend(&mut rooms.work, &before.work, place);
    let result = lend(&mut rooms.result, &before.result, place);
    let text_room = &mut rooms.text;
    let code = rooms.sheet.lend_fixed(&call.sheet, place, |sheet| {
        text_room.lend_fixed(&call.text, place, |text| {
            library_check(sheet, text, table, work, result)
        })
    });
    After {
        code,
        table: table.to_vec(),
        work: work.to_vec(),
        answer: Vec::new(),
        result: result.to_vec(),
    }
}

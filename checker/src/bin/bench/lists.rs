//! Steal list and Fetch list on an image: the box's beside quick's.

use super::{busy, in_turns, opened, print_plain_head, print_plain_row, seated, Quay, FULL};
use checker::call::{Lister, Order};
use checker::model::{Page, State};
use checker::{ffi, quick};
use std::hint::black_box;

/// A list that is never too short.
const ROOM: usize = 8_192;

struct Case {
    name: String,
    image: Vec<u8>,
    order: Order,
}

/// Prints the table of both lists.
pub fn table() {
    println!("Steal list and Fetch list, by the two functions of `libprobe.a`: each restores");
    println!("the image, makes the order and writes its keys into a list of {ROOM} numbers;");
    println!("nothing is saved. With L 2000000 a look-ahead reaches its file's end.\n");
    print_plain_head();
    for case in cases() {
        print_plain_row(&case.name, measure(&case.name, case.order, &case.image));
    }
}

/// Long orders, with and without a fetch time, with many pages in fetch, and those of an
/// everyday quay.
fn cases() -> Vec<Case> {
    let far_seeing = [0, 100].map(|fetch_time| Quay {
        look_ahead: 2_000_000,
        fetch_time,
        ..FULL
    });
    let mut cases = Vec::new();
    cases.extend(far_seeing.map(|quay| case(Order::Steal, spread(quay))));
    let [_, waits] = far_seeing;
    cases.push(open_case(opened(spread(waits))));
    cases.extend(far_seeing.map(|quay| case(Order::Fetch, seated(quay))));
    let everyday = Quay {
        files: 4,
        readers: 4,
        frames: 64,
        look_ahead: 1_000,
        fetch_time: 50,
        ..FULL
    };
    cases.extend(Order::BOTH.map(|order| case(order, busy(everyday))));
    cases
}

/// The readers of a quay, and every frame taken by pages spread over all files.
pub fn spread(quay: Quay) -> State {
    let mut state = seated(quay);
    let apart = quay.files * quay.pages / quay.frames;
    let nth_page = |nth| Page::of_key(apart * nth + apart / 2);
    state.cached = (0..quay.frames).map(nth_page).collect();
    state
}

fn case(order: Order, state: State) -> Case {
    let name = format!(
        "{}, {} keys, {} readers, {} cached, L {}, T {}",
        order.name(),
        state.order(order).len(),
        state.readers.len(),
        state.cached.len(),
        state.look_ahead,
        state.fetch_time
    );
    let image = state.image();
    Case { name, image, order }
}

/// The steal list of a state with many pages in fetch.
fn open_case(state: State) -> Case {
    let open = state.in_fetch.len();
    let mut case = case(Order::Steal, state);
    case.name += &format!(", {open} in fetch");
    case
}

/// Nanoseconds a list, by quick and by the box.
pub fn measure(name: &str, order: Order, image: &[u8]) -> [f64; 2] {
    let listers = [quick::list as Lister, ffi::list];
    let [by_quick, by_box] = listers.map(|lister| {
        let mut list = [0; ROOM];
        (lister(order, image, &mut list), list)
    });
    assert!(
        by_quick == by_box && by_quick.0 >> 32 == 1,
        "quick and the box differ: {name}"
    );
    in_turns(listers.map(|lister| {
        let mut list = [0; ROOM];
        move || lister(order, black_box(image), black_box(&mut list))
    }))
}

//! Save, Restore and the lent lists.

use checker::call::{Entry, Settings};
use checker::limits::IMAGE_BYTES;
use checker::model::{Page, Refusal, State};
use checker::random::Dice;
use checker::scene::any_state;
use checker::trial::{rules, Report};
use checker::{quick, swift};

#[test]
fn images_come_back_as_they_went() {
    let mut dice = Dice::new(2);
    for _ in 0..1_000 {
        let state = any_state(&mut dice);
        let image = state.image();
        assert_eq!(image.len(), IMAGE_BYTES);
        assert_eq!(State::restore(&image), (state, Ok(())));
    }
}

#[test]
fn images_lie_as_the_paper_says() {
    let mut settings = Settings::of_1989(515, 0x0001_0203, 70_000, [1_024, 0, 0, 0, 0, 0, 0, 258]);
    settings.rule = 1;
    settings.expected = [1_000, 0, 0, 0, 0, 0, 0, 258];
    let (mut state, _) = State::setup_by_rule(&settings);
    state.attaches[7] = 0xFFFE;
    state.turn = 9;
    state.attach(3, 7, 999, 257, 258).unwrap();
    state.read(3).unwrap(); // page 258 of file 7: in fetch, waited for
    state.attach(15, 0, 1, 1_000, 1_024).unwrap();
    state.cached.insert(Page {
        file: 0,
        number: 1_024,
    });
    let image = state.image();

    let mut expected = vec![0; IMAGE_BYTES];
    expected[0..4].copy_from_slice(&[0x03, 0x02, 9, 0]);
    expected[4..8].copy_from_slice(&[0x03, 0x02, 0x01, 0]);
    expected[8..12].copy_from_slice(&[0x70, 0x11, 0x01, 0]);
    expected[12..14].copy_from_slice(&[0x00, 0x04]);
    expected[26..28].copy_from_slice(&[0x02, 0x01]);
    expected[52..60].copy_from_slice(&[2, 7, 0xE7, 0x03, 0x01, 0x01, 0x02, 0x01]);
    expected[148..156].copy_from_slice(&[1, 0, 1, 0, 0xE8, 0x03, 0x00, 0x04]);
    expected[160 + 127] = 0x80;
    expected[1_184 + 7 * 128 + 32] = 0x02;
    expected[2_208 + 6..2_208 + 8].copy_from_slice(&[0x01, 0x01]);
    expected[2_238..2_242].copy_from_slice(&[0xE8, 0x03, 1, 0]);
    expected[2_242..2_244].copy_from_slice(&[0xE8, 0x03]);
    expected[2_256..2_260].copy_from_slice(&[0x02, 0x01, 1, 0]);
    expected[2_272..].copy_from_slice(&[0xFF, 0xFF]);
    assert_eq!(expected.len(), 2_274);
    assert_eq!(image, expected);
}

/// "an accepted image comes back unchanged", whatever was damaged.
#[test]
fn an_accepted_image_comes_back_unchanged() {
    let mut dice = Dice::new(19);
    let mut accepted = 0;
    for _ in 0..5_000 {
        let mut image = any_state(&mut dice).image();
        for _ in 0..dice.between(1, 3) {
            let at = match dice.below(2) {
                0 => dice.between(2_208, 2_273),
                _ => dice.below(160),
            };
            let any = dice.bits() as u8;
            image[at as usize] = dice.pick(&[0, 1, any]);
        }
        if let Ok(state) = State::of_image(&image) {
            assert_eq!(state.image(), image);
            accepted += 1;
        }
    }
    assert!(accepted > 200);
}

#[test]
fn save_refuses_short_buffers_and_keeps_the_bytes_behind() {
    let state = any_state(&mut Dice::new(3));
    let mut short = [7; IMAGE_BYTES - 1];
    assert_eq!(state.save(&mut short), Err(Refusal::TooShort));
    assert_eq!(short, [7; IMAGE_BYTES - 1]);
    let mut long = [7; IMAGE_BYTES + 5];
    assert_eq!(state.save(&mut long), Ok(()));
    assert_eq!(long[..IMAGE_BYTES], state.image());
    assert_eq!(long[IMAGE_BYTES..], [7; 5]);
}

#[test]
fn refused_setups_and_images_give_the_idle_state() {
    let (state, answer) = State::setup(1, 1, 0, [1_025; 8]);
    assert_eq!((state, answer), (State::idle(), Err(Refusal::Setup)));
    let restored = State::restore(&[0; IMAGE_BYTES]);
    assert_eq!(restored, (State::idle(), Err(Refusal::Image)));
}

#[test]
fn setup_takes_exactly_its_ranges() {
    let good = |frames, l, t, size| State::setup(frames, l, t, [size; 8]).1.is_ok();
    assert!(good(1, 1, 0, 0) && good(1_024, 2_000_000, 2_000_000, 1_024));
    assert!(!good(0, 1, 0, 0) && !good(1_025, 1, 0, 0));
    assert!(!good(1, 0, 0, 0) && !good(1, 2_000_001, 0, 0));
    assert!(!good(1, 1, 2_000_001, 0) && !good(1, 1, 0, 1_025));
    assert!(!good(u64::MAX, 1, 0, 0) && !good(1, u64::MAX, 0, 0));
}

/// E "outside that, or a rule other than the two, is refusal 1", under either rule.
#[test]
fn setup_takes_two_rules_and_a_thousand_readers() {
    let set_up = |rule, expected| {
        let plain = Settings::of_1989(1, 1, 0, [0; 8]);
        State::setup_by_rule(&Settings {
            rule,
            expected,
            ..plain
        })
    };
    for rule in [0, 1] {
        let (state, answer) = set_up(rule, [1_000; 8]);
        assert!(answer.is_ok());
        assert_eq!((state.rule.number(), state.expected), (rule, [1_000; 8]));
        assert_eq!(state.attaches, [0; 8]);
        for file in 0..8 {
            let mut expected = [0; 8];
            expected[file] = 1_001;
            let refused = (State::idle(), Err(Refusal::Setup));
            assert_eq!(set_up(rule, expected), refused);
        }
    }
    for rule in [2, 255, 256, 257, u64::MAX] {
        assert_eq!(set_up(rule, [0; 8]).1, Err(Refusal::Setup));
    }
}

/// Bytes written over an image, each piece with its place, and the rule that they
/// break.
const BROKEN: [(usize, &[u8], &str); 28] = [
    (0, &[0, 0], "the number of frames is 0, not 1 to 1024"),
    (2, &[16], "the turn is 16, not 0 to 15"),
    (3, &[1], "a byte behind the turn is not 0"),
    (4, &[0; 4], "the look-ahead is 0, not 1 to 2000000"),
    (10, &[0xFF], "the fetch time is 16711700, not 0 to 2000000"),
    (26, &[1, 4], "the size of file 7 is 1025, not 0 to 1024"),
    (28, &[3], "slot 0 has condition 3, not 0 to 2"),
    (28, &[0], "a byte in the empty slot 0 is not 0"),
    (29, &[1], "slot 0 reads file 1, which has no pages"),
    (30, &[0], "the pace of slot 0 is 0, not 1 to 1000"),
    (32, &[4], "slot 0 is at page 4, above its last page 3"),
    (34, &[4], "the last page of slot 0 is 4, but its file has 3"),
    (34, &[1], "slot 0 waits at its last page"),
    (32, &[2], "slot 0 waits, but its next page is not in fetch"),
    (
        35,
        &[1],
        "the last page of slot 0 is 259, but its file has 3",
    ),
    (156, &[1], "a byte behind the readers is not 0"),
    (
        160,
        &[9],
        "page 4 of file 0 is in a map, but the file has 3",
    ),
    (
        1_184 + 128,
        &[1],
        "page 1 of file 1 is in a map, but the file has 0",
    ),
    (160, &[3], "page 2 of file 0 is in both maps"),
    (34, &[0], "the last page of slot 0 is 0"),
    (2_208, &[2], "the mark of slot 0 is 2, above its page 1"),
    (2_209, &[1], "the mark of slot 0 is 256, above its page 1"),
    (2_239, &[1], "the mark of the empty slot 15 is 256, not 0"),
    (2_240, &[2], NO_RULE),
    (2_241, &[1], "a byte behind the rule is not 0"),
    (2_241, &[0x80], "a byte behind the rule is not 0"),
    (
        2_242,
        &[0xE9, 0x03],
        "the number of expected readers of file 0 is 1001, not 0 to 1000",
    ),
    (
        2_257,
        &[0xFF],
        "the number of expected readers of file 7 is 65280, not 0 to 1000",
    ),
];

const NO_RULE: &str = "the rule byte is 2, not 0 for 1989 or 1 for 1993";

/// Two frames, three pages in file 0; page 1 is cached, page 2 in fetch, and slot
/// 0 waits for it.
#[test]
fn a_refused_image_says_why() {
    let (mut state, _) = State::setup(2, 100, 20, [3, 0, 0, 0, 0, 0, 0, 0]);
    let page = |number| Page { file: 0, number };
    state.cached.insert(page(1));
    state.attach(0, 0, 10, 0, 3).unwrap();
    state.read(0).unwrap();
    state.read(0).unwrap();
    for (at, bytes, why) in BROKEN {
        let mut image = state.image();
        image[at..at + bytes.len()].copy_from_slice(bytes);
        assert_eq!(State::of_image(&image), Err(why.to_string()));
    }
    state.cached.insert(page(3));
    state.frames = 1;
    let said = State::of_image(&state.image());
    assert_eq!(
        said,
        Err("more cached pages (2) than frames (1)".to_string())
    );
    let said = State::of_image(&[0; 5]);
    let words = "5 bytes, not 2274, or 2240 or 2208 in an older image";
    assert_eq!(said, Err(words.to_string()));
}

#[test]
fn each_rule_of_restore_is_kept() {
    let mut report = Report::default();
    for entry in [quick::entry as Entry, swift::entry] {
        rules::rules(&mut report, entry);
    }
    assert_eq!(report.failed(), 0);
}

/// A call that writes into a lent list and says how many numbers it wrote.
type Write<'a> = &'a dyn Fn(&mut [u16]) -> Result<usize, Refusal>;

#[test]
fn lists_too_short_are_refused_and_left() {
    let mut dice = Dice::new(4);
    for _ in 0..300 {
        let state = any_state(&mut dice);
        let file = dice.below(9); // 8 is no file
        let lists: [Write; 3] = [
            &|list| state.steal_list(list),
            &|list| state.fetch_list(list),
            &|list| state.clusters(file, list).map(|count| 2 * count),
        ];
        for write in lists {
            let mut long = [0xAAAA; 8_192];
            let Ok(written) = write(&mut long) else {
                assert_eq!(write(&mut []), Err(Refusal::File)); // before 12
                continue;
            };
            assert!(long[written..].iter().all(|&number| number == 0xAAAA));
            let mut exact = vec![0; written];
            assert_eq!(write(&mut exact), Ok(written));
            assert_eq!(exact, long[..written]);
            if written > 0 {
                let mut short = vec![0xAAAA; written - 1];
                assert_eq!(write(&mut short), Err(Refusal::TooShort));
                assert!(short.iter().all(|&number| number == 0xAAAA));
            }
        }
    }
}

/// The steal order has every cached page once, the fetch order none of them,
/// and the clusters of all files hold exactly the cached pages.
#[test]
fn lists_hold_the_right_pages() {
    let mut dice = Dice::new(5);
    for _ in 0..300 {
        let state = any_state(&mut dice);
        let mut order = state.steal_order();
        order.sort();
        assert!(order.iter().eq(&state.cached));
        let fetches = state.fetch_order();
        assert!(fetches.iter().all(|page| !state.cached.contains(page)));
        assert!(fetches.iter().all(|page| !state.in_fetch.contains(page)));

        let mut clustered = Vec::new();
        for file in state.files() {
            let mut list = [0; 1_024];
            let count = state.clusters(file, &mut list).unwrap();
            for ends in list[..2 * count].chunks(2) {
                let numbers = u64::from(ends[0])..=u64::from(ends[1]);
                clustered.extend(numbers.map(|number| Page { file, number }));
            }
            let gaps = list[1..2 * count.max(1) - 1].chunks(2);
            assert!(gaps.into_iter().all(|gap| gap[0] + 1 < gap[1]));
        }
        assert!(clustered.iter().eq(&state.cached));
    }
}

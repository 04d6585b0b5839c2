//! Older images: what the trials take for right, and all that they must meet.

use checker::call::{Entry, Older};
use checker::limits::{IMAGE_BYTES, MARKED_IMAGE_BYTES, OLDER_IMAGE_BYTES};
use checker::model::{probe, upgrade_image, Reader, Rule, State};
use checker::random::Dice;
use checker::scene::any_state;
use checker::trial::older::{self, older_image, OLDER_OUTCOMES};
use checker::trial::{rules, Report};
use checker::{quick, swift};

/// The number of O at the C boundary.
const O: u64 = 79 * 65_536;

fn by_model(image: &[u8], buffer: &mut [u8]) -> u64 {
    let (number, after) = probe(image, buffer);
    buffer.copy_from_slice(&after);
    number
}

fn upgrade_by_model(buffer: &mut [u8], older: Older) -> u64 {
    let (number, after) = upgrade_image(buffer, older);
    buffer.copy_from_slice(&after);
    number
}

#[test]
fn the_trials_meet_every_case() {
    let (mut report, mut dice) = (Report::default(), Dice::new(20));
    rules::by_probe(&mut report, by_model);
    older::every_byte(&mut report, by_model, &mut dice);
    older::probed(&mut report, by_model, &mut dice, 1_500);
    for entry in [quick::entry as Entry, swift::entry] {
        rules::by_upgrade(&mut report, upgrade_by_model, entry);
        older::upgraded(&mut report, upgrade_by_model, entry, &mut dice, 1_500);
    }
    report.check_every_outcome_met(OLDER_OUTCOMES);
    println!("{}", report.outcomes(OLDER_OUTCOMES));
    assert_eq!(report.failed(), 0);
}

/// File 0 has 300 pages, file 7 has 20. Slot 0 was measured at page 258, slot 15 at
/// none; an older image knows neither mark, and not the last page of slot 15.
fn measured() -> State {
    let (mut state, _) = State::setup(5, 100, 0, [300, 0, 0, 0, 0, 0, 0, 20]);
    state.attach(0, 0, 10, 258, 299).unwrap();
    state.attach(15, 7, 10, 0, 20).unwrap();
    state.readers.get_mut(&0).unwrap().position = 260;
    state.readers.get_mut(&15).unwrap().position = 4;
    state
}

#[test]
fn an_older_image_is_filled_in() {
    let mut state = measured();
    let mut older = state.image();
    older.truncate(OLDER_IMAGE_BYTES);
    older[28 + 15 * 8 + 6] = 0;
    let mut expected = state.image();
    expected[2_208..2_210].copy_from_slice(&[4, 1]); // 260
    expected[2_238..2_240].copy_from_slice(&[4, 0]);
    expected[2_240..].fill(0);

    let upgraded = upgrade_image(&[7; IMAGE_BYTES], Older::Apart(&older));
    assert_eq!(upgraded, (O, expected.clone()));
    let in_place = [&older[..], &[7; 66]].concat();
    let upgraded = upgrade_image(&in_place, Older::InPlace(OLDER_IMAGE_BYTES));
    assert_eq!(upgraded, (O, expected.clone()));

    for reader in state.readers.values_mut() {
        reader.mark = reader.position;
    }
    state.attaches = [0; 8];
    assert_eq!(State::restore(&older), (state.clone(), Ok(())));
    assert_eq!(state.image(), expected);
    let (number, buffer) = probe(&older, &[7; IMAGE_BYTES + 3]);
    assert_eq!(number, O * 4_294_967_296 + O);
    assert_eq!(buffer, [&expected[..], &[7; 3]].concat());
}

/// "shorter ones are read as 1989 with E and R 0"; nothing else is changed in one of
/// 2,240 bytes.
#[test]
fn an_image_without_a_rule_is_of_1989() {
    let mut state = measured();
    state.rule = Rule::Of1993;
    state.expected = [3; 8];
    let mut marked = state.image();
    marked.truncate(MARKED_IMAGE_BYTES);
    let expected = [&marked[..], &[0; 34]].concat();

    let upgraded = upgrade_image(&[7; IMAGE_BYTES], Older::Apart(&marked));
    assert_eq!(upgraded, (O, expected.clone()));
    let in_place = [&marked[..], &[7; 34]].concat();
    let upgraded = upgrade_image(&in_place, Older::InPlace(MARKED_IMAGE_BYTES));
    assert_eq!(upgraded, (O, expected.clone()));

    state.rule = Rule::Of1989;
    (state.expected, state.attaches) = ([0; 8], [0; 8]);
    assert_eq!(State::restore(&marked), (state, Ok(())));
    let (number, buffer) = probe(&marked, &[7; IMAGE_BYTES]);
    assert_eq!((number, buffer), (O * 4_294_967_296 + O, expected));
    marked[28 + 6..28 + 8].fill(0); // the last page of slot 0
    assert!(State::of_image(&marked).is_err());
}

#[test]
fn an_image_of_the_new_length_is_as_it_is() {
    let image = measured().image();
    let upgraded = upgrade_image(&[7; IMAGE_BYTES], Older::Apart(&image));
    assert_eq!(upgraded, (O, image.clone()));
    let upgraded = upgrade_image(&image, Older::InPlace(IMAGE_BYTES));
    assert_eq!(upgraded, (O, image.clone()));
    let restored = State::restore(&image);
    assert_eq!(restored, (measured(), Ok(())));
    assert_eq!(
        probe(&image, &[7; IMAGE_BYTES]),
        (O * 4_294_967_296 + O, image)
    );
}

/// A taken slot of file 8 has no size to fill in; an empty one keeps its 0.
#[test]
fn an_upgrade_judges_nothing() {
    let mut older = vec![0; OLDER_IMAGE_BYTES];
    older[12..14].copy_from_slice(&[0xFF, 0xFF]); // file 0, a size that is none
    older[28..36].copy_from_slice(&[9, 0, 0, 0, 3, 2, 0, 0]);
    older[36..44].copy_from_slice(&[1, 8, 0, 0, 5, 0, 0, 0]);
    older[44..52].copy_from_slice(&[0, 0, 0, 0, 6, 0, 0, 0]);
    older[52..60].copy_from_slice(&[1, 0, 0, 0, 0, 0, 0, 1]);
    let mut expected = older.clone();
    expected[34..36].copy_from_slice(&[0xFF, 0xFF]);
    expected.extend([3, 2, 5, 0, 6, 0]);
    expected.resize(IMAGE_BYTES, 0);
    let upgraded = upgrade_image(&[7; IMAGE_BYTES], Older::Apart(&older));
    assert_eq!(upgraded, (O, expected));
}

#[test]
fn other_lengths_are_refused_and_left() {
    let image = State::idle().image();
    for length in [0, 2_207, 2_209, 2_239, 2_241, 2_273, 2_275] {
        let mut other = image.clone();
        other.resize(length, 0);
        let upgraded = upgrade_image(&[7; IMAGE_BYTES], Older::Apart(&other));
        assert_eq!(upgraded, (13, vec![7; IMAGE_BYTES]));
        let idle = probe(&other, &[7; IMAGE_BYTES]);
        assert_eq!(idle, (O * 4_294_967_296 + 13, image.clone()));
    }
    for length in [0, 2_207, 2_208, 2_239, 2_240, 2_273, 2_275] {
        let upgraded = upgrade_image(&vec![7; length], Older::Apart(&image));
        assert_eq!(upgraded, (13, vec![7; length]));
    }
    for length in [0, 2_207, 2_208, 2_240, 2_273] {
        let short = probe(&image, &vec![7; length]);
        assert_eq!(short, (12 * 4_294_967_296 + O, vec![7; length]));
        let both = probe(&image[1..], &vec![7; length]);
        assert_eq!(both, (12 * 4_294_967_296 + 13, vec![7; length]));
    }
}

/// Last pages of 0 come back as the files' sizes, slot by slot, and marks as the
/// positions; nothing else does.
#[test]
fn older_images_come_back_filled_in() {
    let mut dice = Dice::new(19);
    let (mut filled_in, mut kept) = (0, 0);
    for _ in 0..1_000 {
        let mut state = any_state(&mut dice);
        let image = older_image(&mut dice, &state);
        state.rule = Rule::Of1989;
        (state.expected, state.attaches) = ([0; 8], [0; 8]);
        for (&slot, reader) in &mut state.readers {
            let at = 28 + 8 * slot as usize + 6;
            if image[at..at + 2] == [0, 0] {
                reader.last = state.sizes[reader.file as usize];
                filled_in += 1;
            } else {
                kept += 1;
            }
            *reader = Reader {
                waiting: reader.waiting,
                ..Reader::running(reader.file, reader.pace, reader.position, reader.last)
            };
        }
        let (restored, accepted) = State::restore(&image);
        assert_eq!((&restored, accepted), (&state, Ok(())));
        assert_eq!(restored.image(), state.image());
    }
    assert!(filled_in > 100 && kept > 100);
}

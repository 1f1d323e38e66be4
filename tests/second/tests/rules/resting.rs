//! Ids that rest: what enters and leaves, refusal 22 and its order, and which states are sound.
//! docs/RULES.md, "Ids that rest".

use crate::common::{model, play, state};
use crate::readings::table;
use second::drive::Drive;
use second::engine::{forget, request_invoke, Invocation};
use second::frame::{self, Frame};
use second::resting::Resting;
use second::state::State;

/// A state with these own and peer records of operation 2, and these resting ids.
fn resting(own: &[i32], peer: &[i32], ids: &[i32]) -> State {
    let records = |ids: &[i32]| ids.iter().map(|id| (*id, 2)).collect::<Vec<_>>();
    let mut state = state(&records(own), &records(peer));
    ids.iter().for_each(|id| state.resting.add(*id));
    state
}

fn check(state: &State, cases: &[(&str, &str)]) {
    for (call, answer) in cases {
        let line = play(&table(), state, call);
        assert!(line.starts_with(&format!("{answer} ")), "{call}\n  wanted {answer}\n  was    {line}");
    }
}

/// What follows ` rest ` in the line of a call.
fn rest(state: &State, call: &str) -> String {
    let line = play(&table(), state, call);
    let (_, rest) = line.split_once(" rest ").expect("each line shows what rests");
    rest.split_once(" kept ").expect("each line shows what is kept").0.to_string()
}

#[test]
fn an_own_invoke_with_a_resting_id_is_refused() {
    let state = resting(&[], &[9], &[5, 0, -7]);
    for id in [5, 0, -7] {
        for invoke in ["1 02 01 00", "2 02 01 00", "3 02 01 00", "4 02 01 00", "5 02 01 00", "6"] {
            check(&state, &[(&format!("invoke {id} {invoke}"), "refused 22")]);
        }
        check(&state, &[(&format!("linked {id} 9 2 02 01 00"), "refused 22")]);
    }
    check(&state, &[("invoke 6 2 02 01 00", "sent"), ("invoke 9 2 02 01 00", "sent"), ("linked 6 9 6", "sent")]);
    check(&resting(&[], &[], &[5]), &[("invoke 0 2 02 01 00", "sent"), ("invoke 517 2 02 01 00", "sent")]);
    check(&resting(&[], &[], &[-507]), &[("invoke 5 2 02 01 00", "sent")]);
}

#[test]
fn it_comes_directly_after_5() {
    let blocked = {
        let mut state = state(&[(3, 1)], &[(9, 8)]);
        state.resting.add(5);
        state
    };
    check(
        &blocked,
        &[
            ("invoke 5 99", "refused 4"),
            ("invoke 3 2", "refused 5"),
            ("invoke 5 2", "refused 22"),
            ("invoke 6 2", "refused 6"),
            ("linked 5 1 2", "refused 22"),
            ("linked 5 9 2", "refused 22"),
        ],
    );
    let state = resting(&[], &[9], &[5]);
    for call in ["linked 5 1 6", "linked 5 9 8", "invoke 5 2 02", "invoke 5 2 02 01 00 00", "invoke 5 2 04 00"] {
        check(&state, &[(call, "refused 22")]);
    }
    check(&state, &[("@0 invoke 5 8", "refused 22")]);
    let full: Vec<i32> = (100..132).collect();
    check(&resting(&full, &[], &[5]), &[("invoke 5 8", "refused 22"), ("invoke 6 8", "refused 14")]);
    assert!(play(&[], &state, "invoke 5 8").starts_with("refused 1 "));
    assert!(play(&[], &resting(&[5], &[], &[5]), "invoke 5 8").starts_with("refused 19 "));
}

#[test]
fn only_an_accepted_forget_of_an_own_record_lets_an_id_rest() {
    let state = resting(&[5, 6], &[5, 7], &[8]);
    for (call, ids) in [
        ("own 5", "0002 00000008 00000005"),
        ("own 6", "0002 00000008 00000006"),
        ("own 7", "0001 00000008"),
        ("own 8", "0001 00000008"),
        ("peer 5", "0001 00000008"),
        ("result 5 02 01 00", "0001 00000008"),
        ("error 5 1", "0001 00000008"),
        ("reject 5 2", "0001 00000008"),
        ("receive A2 0B 02 01 05 30 06 02 01 02 02 01 00", "0001 00000008"),
        ("receive A3 06 02 01 05 02 01 01", "0001 00000008"),
        ("receive A4 06 02 01 05 81 01 01", "0001 00000008"),
        ("invoke 9 2 02 01 00", "0001 00000008"),
    ] {
        assert_eq!(rest(&state, call), ids, "{call}");
    }
    let mut silent = State::fresh();
    silent.peer.add(5, second::code::Code::Local(3));
    assert_eq!(play(&table(), &silent, "peer 5"), "forgotten own 0000 peer 0000 out - place 0 rest 0000 kept 0000");
}

#[test]
fn a_late_answer_is_refused_and_its_id_rests_on() {
    let state = resting(&[], &[], &[5, 6]);
    for (call, answer) in [
        ("receive A2 0B 02 01 05 30 06 02 01 02 02 01 00", "refused 18 82 00"),
        ("receive A3 06 02 01 05 02 01 01", "refused 18 83 00"),
        ("receive A4 06 02 01 05 81 01 01", "reject-u 00000005 81 01"),
        ("receive A1 09 02 01 05 02 01 02 02 01 00", "invoke 00000005 none 00000002"),
        ("receive A1 09 02 01 07 80 01 05 02 01 06", "refused 18 81 05"),
    ] {
        check(&state, &[(call, answer)]);
        assert_eq!(rest(&state, call), "0002 00000005 00000006", "{call}");
    }
}

/// Invokes and forgets these ids on one end; gives it.
fn forgotten(ids: impl IntoIterator<Item = i32>) -> State {
    let (table, mut state) = (model(&[(2, 2, 0, 0, 0)], &[], &[], &[]).octets(), State::fresh());
    for id in ids {
        let asked = (id, None, second::code::Asked::Local(2));
        assert!(request_invoke(&table, &mut state, asked, &[], &mut [0; 64]).is_ok(), "{id}");
        assert_eq!(forget(&table, &mut state, Invocation::Own(id)), Ok(()));
        assert!(state.is_sound());
    }
    state
}

#[test]
fn the_last_64_rest_oldest_first() {
    assert_eq!(forgotten(0..3).resting.ids(), [0, 1, 2]);
    assert_eq!(forgotten(0..64).resting.ids(), (0..64).collect::<Vec<_>>());
    assert_eq!(forgotten(0..65).resting.ids(), (1..65).collect::<Vec<_>>());
    assert_eq!(forgotten(0..200).resting.ids(), (136..200).collect::<Vec<_>>());
    // The first id rests no more and is forgotten once more.
    assert_eq!(forgotten((0..65).chain([0])).resting.ids(), (2..65).chain([0]).collect::<Vec<_>>());
    let state = forgotten(0..65);
    check(&state, &[("invoke 0 8", "sent"), ("invoke 1 8", "refused 22"), ("invoke 64 8", "refused 22")]);
}

#[test]
fn which_states_are_sound() {
    let with = |own: &[i32], peer: &[i32], count: u16, ids: &[i32]| {
        let mut state = resting(own, peer, &[]);
        state.resting.count = count;
        state.resting.places[..ids.len()].copy_from_slice(ids);
        state
    };
    let sixty_four: Vec<i32> = (0..64).map(|id| id * 512).collect();
    let mut last = sixty_four.clone();
    last[63] = last[0];
    let mut behind = State::fresh();
    behind.resting.places[63] = -1;
    let cases = [
        (with(&[], &[], 0, &[]), true),
        (with(&[], &[], 1, &[0]), true),
        (with(&[], &[], 2, &[7, 0]), true),
        (with(&[], &[], 3, &[5, 517, -507]), true),
        (with(&[517], &[5], 1, &[5]), true),
        (with(&[], &[], 64, &sixty_four), true),
        (with(&[], &[], 64, &last), false),
        (with(&[], &[], 65, &sixty_four), false),
        (with(&[], &[], 65_535, &sixty_four), false),
        (with(&[], &[], 2, &[0, 0]), false),
        (with(&[], &[], 2, &[0]), false),
        (with(&[], &[], 2, &[5, 5]), false),
        (with(&[], &[], 4, &[5, 517, 6, 5]), false),
        (with(&[5], &[], 1, &[5]), false),
        (with(&[4, 5], &[], 3, &[7, 8, 5]), false),
        (with(&[0], &[], 1, &[0]), false),
        (with(&[], &[], 1, &[5, 6]), false),
        (with(&[], &[], 0, &[5]), false),
        (behind, false),
    ];
    for (state, sound) in &cases {
        assert_eq!(state.is_sound(), *sound, "{:?}", state.resting);
        assert_eq!(frame::read_image(&frame::image(state)).as_ref(), Some(state));
        let answer = if *sound { "refused 11 " } else { "refused 19 " };
        assert!(play(&table(), state, "own 99").starts_with(answer), "{:?}", state.resting);
    }
}

#[test]
fn lines_show_each_place_up_to_the_last_that_is_not_0() {
    let line = |count: u16, ids: &[i32]| {
        let mut state = State::fresh();
        state.resting = Resting { count, ..Resting::none() };
        state.resting.places[..ids.len()].copy_from_slice(ids);
        rest(&state, "own 99")
    };
    assert_eq!(line(0, &[]), "0000");
    assert_eq!(line(2, &[0, 0]), "0002 00000000 00000000");
    assert_eq!(line(1, &[0, 0, -1]), "0001 00000000 00000000 ffffffff");
    assert_eq!(line(65, &[3]), format!("0041 00000003{}", " 00000000".repeat(63)));
    let (mut drive, mut text) = (Drive::new(table(), resting(&[5], &[], &[6])).showing_places(true), Vec::new());
    drive.play(&Frame { kind: frame::FORGET, id: 5, ..Frame::default() }, &mut text);
    let wanted = "forgotten own 0000 peer 0000 out - place 0 rest 0002 00000006 00000005 kept 0000 value none\n";
    assert_eq!(String::from_utf8(text).unwrap(), wanted);
}

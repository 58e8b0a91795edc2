//! Checks by hand of document 01, through the boundary.
use daniskol::{Answer, Mode, Refusal, Run, Status, Tactic, Time};

const START: [Time; 1] = [Time::new(0, 0)];

const MEET: [Time; 1] = [Time::new(1, 1)];

fn at(hour: u32, round: u32) -> u64 {
    Time::new(hour, round).packed()
}

// Two edits that stand in no order.
fn edits(times: &[u64; 2]) -> Run<'_> {
    Run { keys: &[7, 7], values: &[1, 1], times, diffs: &[1, 1] }
}

// A tactic that was called with them up to (1,1), and what it answered.
fn called(times: &[u64; 2]) -> (Tactic, Answer) {
    let mut tactic = Tactic::new(Mode::Count, 1);
    let first = tactic.retire(Run::EMPTY, edits(times), Run::EMPTY, &START, &MEET, &START).unwrap();
    (tactic, first)
}

// The join of the two comes due in the next call.
#[test]
fn a_pended_join_is_kept_and_settled_by_the_next_call() {
    let times = [at(0, 1), at(1, 0)];
    let (mut tactic, first) = called(&times);
    let (new, meet) = (edits(&times), MEET);
    assert_eq!((first.status, first.fixes.len(), first.frontier.as_slice()), (Status::Worked, 2, &meet[..]));
    assert_eq!(tactic.pending().collect::<Vec<_>>(), [(7, Time::new(1, 1))]);

    // The first call's corrections are old output now.
    let one = (1 << 63) + 1;
    let out = Run { keys: &[7, 7], values: &[one, one], times: &times, diffs: &[1, 1] };
    let then = tactic.retire(new, Run::EMPTY, out, &meet, &[], &meet).unwrap();
    let fixes: Vec<_> = then.fixes.iter().map(|f| (f.value, f.time, f.diff)).collect();
    assert_eq!(fixes, [(one, Time::new(1, 1), -2), (one + 1, Time::new(1, 1), 1)]);
    assert_eq!((then.tiles.len(), then.frontier.len(), tactic.pending().count()), (1, 0, 0));
    assert_eq!((then.tiles[0].lower.as_slice(), then.tiles[0].upper.len(), then.tiles[0].held), (&meet[..], 0, meet[0]));
}

#[test]
fn a_refused_call_keeps_the_pending_list() {
    let times = [at(0, 1), at(1, 0)];
    let (mut tactic, _) = called(&times);
    let meet = MEET;
    let zero = Run { keys: &[7], values: &[1], times: &times[..1], diffs: &[0] };
    assert_eq!(tactic.retire(zero, Run::EMPTY, Run::EMPTY, &meet, &[], &meet), Err(Refusal::Run));
    let uneven = Run { keys: &[7], values: &[], times: &[], diffs: &[] };
    assert_eq!(tactic.retire(uneven, Run::EMPTY, Run::EMPTY, &meet, &[], &meet), Err(Refusal::Sizes));
    assert_eq!(tactic.pending().count(), 1);
}

#[test]
fn statuses_without_work() {
    let mut tactic = Tactic::new(Mode::Distinct, 64);
    let nothing = tactic.retire(Run::EMPTY, Run::EMPTY, Run::EMPTY, &START, &[], &START).unwrap();
    assert_eq!((nothing.status, nothing.tiles.len()), (Status::NothingChanged, 0));
    let held = [Time::new(3, 3)];
    let quiet = tactic.retire(Run::EMPTY, Run::EMPTY, Run::EMPTY, &START, &[Time::new(2, 2)], &held).unwrap();
    assert_eq!((quiet.status, quiet.frontier.as_slice()), (Status::Quiet, &held[..]));
    assert_eq!(Tactic::new(Mode::Count, 65).retire(Run::EMPTY, Run::EMPTY, Run::EMPTY, &START, &[], &START), Err(Refusal::Sizes));
}

// A count of sheets that is corrected twice at one tray, in distinct windows of one key.
#[test]
fn windows_of_any_width_give_the_same_corrections() {
    let keys: Vec<u64> = (0..200).flat_map(|k| [k, k]).collect();
    let values: Vec<u64> = (0..400).map(|i| i % 2).collect();
    let times: Vec<u64> = (0..400).map(|i| if i % 2 == 0 { at(0, 1) } else { at(1, 0) }).collect();
    let diffs = vec![1; 400];
    let new = Run { keys: &keys, values: &values, times: &times, diffs: &diffs };
    let mut answers = [1, 7, 64].map(|width| Tactic::new(Mode::Count, width).retire(Run::EMPTY, new, Run::EMPTY, &START, &[], &START).unwrap());
    assert_eq!(answers.each_ref().map(|a| a.crossings), [600, 29 * 3, 4 * 3]);
    for a in &mut answers {
        a.crossings = 0;
    }
    assert_eq!(answers[0], answers[1]);
    assert_eq!(answers[0], answers[2]);
    assert_eq!(answers[0].fixes.len(), 800);
}

// The line form through the boundary: replies to a request, to a bad line and to no bytes at all.
#[test]
fn lines_are_answered_as_the_program_answers_them() {
    let example = |name: &str| std::fs::read(format!("{}/../../examples/{name}", env!("CARGO_MANIFEST_DIR"))).unwrap();
    for name in ["listing", "waiting", "bad-line"] {
        assert_eq!(daniskol::answer(&example(&format!("{name}.req"))), example(&format!("{name}.ans")));
    }
    assert_eq!(daniskol::answer(b""), b"status=20\nline=1\nend=\n");
}

// A call is lent as much of the tactic's memory as it needs: what a long call leaves there must not show in a short one, nor the other way round.
#[test]
fn calls_of_all_lengths_share_memory() {
    let runs: Vec<Vec<u64>> = [1, 300, 2, 64, 65, 1, 129].map(|n| (0..n).map(|i| at(i, 0)).collect()).to_vec();
    let mut shared = Tactic::new(Mode::Count, 64);
    for times in &runs {
        let (keys, values, diffs) = (vec![7; times.len()], vec![1; times.len()], vec![1; times.len()]);
        let new = Run { keys: &keys, values: &values, times, diffs: &diffs };
        let alone = Tactic::new(Mode::Count, 64).retire(Run::EMPTY, new, Run::EMPTY, &START, &[], &START).unwrap();
        assert_eq!(alone.fixes.len(), 2 * times.len() - 1);
        assert_eq!(shared.retire(Run::EMPTY, new, Run::EMPTY, &START, &[], &START).unwrap(), alone);
    }
}

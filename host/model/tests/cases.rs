//! The documents' cases over the model.

use model::cases::{all, ceilings, many_deleted, marked, paired, slips, swept, unmarked, Case};
use model::{Answer, Call, Model, Refusal, NUMBERS_END};

fn check(cases: Vec<Case>) {
    for case in cases {
        let mut model = Model::fresh(case.arena);
        case.check(|call| {
            let before = model.clone();
            let reply = model.call(call);
            if reply.number != 0 {
                assert_eq!(model, before, "{}: a refusal changed the state", case.name);
            }
            reply
        })
        .unwrap_or_else(|difference| panic!("{difference}"));
    }
}

#[test]
fn marked_cases() {
    check(marked());
}

#[test]
fn unmarked_cases() {
    check(unmarked());
}

#[test]
fn slips_are_shut_out() {
    check(slips());
}

#[test]
fn ceilings_hold() {
    check(ceilings());
}

#[test]
fn many_are_deleted() {
    check(many_deleted());
}

#[test]
fn uploads_are_swept() {
    check(swept());
}

#[test]
fn pairs_are_kept() {
    check(paired());
}

/// Each refusal of a list of calls but 6 occurs in the table.
#[test]
fn the_table_has_each_number() {
    let cases = all();
    for number in [0, 2, 3, 4, 5, 7, 8] {
        let has = |case: &Case| case.steps.iter().any(|(_, reply)| reply.number == number);
        assert!(cases.iter().any(has), "{number}");
    }
}

#[test]
fn numbers_are_used_up() {
    let mut model = Model::fresh(0);
    model.next = NUMBERS_END - 1;
    let initiate = Call::Initiate { stamp: 1, path: b"r".to_vec(), pairs: Vec::new() };
    assert_eq!(model.call(&initiate).answer, Answer::Upload(4_294_967_295));
    assert_eq!(model.call(&initiate).number, Refusal::NumbersUsedUp as u32);
    assert_eq!(model.call(&Call::Abort { upload: 4_294_967_295 }).number, 0);
    assert_eq!(model.call(&initiate).number, Refusal::NumbersUsedUp as u32);
    let with = |pairs: &[u8]| Call::Initiate { stamp: 1, path: b"r".to_vec(), pairs: pairs.into() };
    assert_eq!(model.call(&with(b"\x01k\0")).number, Refusal::ArenaFull as u32);
    assert_eq!(model.call(&with(b"\x01K\0")).number, Refusal::BadRequest as u32);
    model.next = 1;
    for _ in 0..16 {
        model.call(&initiate);
    }
    model.next = NUMBERS_END;
    assert_eq!(model.call(&initiate).number, Refusal::TableFull as u32);
}

//! The calls of the commands.

use parbegin::{call, check, claims, plan};

const PLAN: &[u8] = b"resource tape = 1; process a begin hold 1 of tape do print 1 od end";

#[test]
fn says_what_the_program_says() {
    assert_eq!(check(PLAN), (0, b"ok\n".to_vec()));
    assert_eq!(call(&["check"], PLAN), check(PLAN));
    assert_eq!(check(b"process p begin print q end"), (1, b"refused N3 at 22\n".to_vec()));
    assert_eq!(call(&["claims"], PLAN), claims(PLAN));
    assert_eq!(claims(PLAN).0, 0);
}

#[test]
fn plans_texts_together() {
    let other = b"resource tape = 2; process b begin hold 1 of tape do print 2 od end";
    assert_eq!(plan(&[PLAN]), call(&["plan"], PLAN));
    assert_eq!(plan(&[PLAN]).0, 0);
    assert_eq!(plan(&[PLAN, other]), (1, b"text 2 refused N2 at 9\n".to_vec()));
    assert_eq!(plan(&[other, b""]), (1, b"text 2 refused P1 at 0\n".to_vec()));
    assert_eq!(plan(&[b"", other]), (1, b"text 1 refused P1 at 0\n".to_vec()));
}

#[test]
fn starts_no_threads() {
    assert_eq!(call(&["run"], PLAN), (7, Vec::new()));
    let (status, record) = call(&["record", "--seed", "7"], PLAN);
    assert_eq!(status, 0);
    assert_eq!(call(&["replay"], &record).0, 0);
}

#[test]
fn gives_replies_of_any_length() {
    let (status, help) = call(&["--help"], b"");
    assert_eq!((status, help.len() > 100), (2, true));
    assert_eq!(call(&["fly"], b"").0, 2);
}

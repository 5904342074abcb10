//! Checks in pieces. `checks/program/bindings` compares many more files with what the program prints.

use pb::{Checker, Fault, Input, LiveTerm, Options, Place, Reason, Status, Verdict};
use std::fs;
use std::io::Write;
use std::path::Path;

fn example(name: &str) -> Vec<u8> {
    let folder = Path::new(env!("CARGO_MANIFEST_DIR")).join("../../examples");
    fs::read(folder.join(name)).expect("an example")
}

fn fed(instance: &[u8], proof: &[u8], size: usize) -> Result<Verdict, Fault> {
    let mut checker = Checker::new(instance)?;
    for piece in proof.chunks(size) {
        checker.feed(piece)?;
    }
    checker.finish()
}

#[test]
fn any_size_gives_the_verdict() {
    for size in [1, 7, 4096] {
        for (name, verdict) in [
            ("refutation", Verdict::Unsat),
            ("optimum", Verdict::Bounds(Some(1), Some(1))),
            ("solution", Verdict::Sat),
            ("consequence", Verdict::NoClaim),
        ] {
            let texts = (
                example(&format!("{name}.opb")),
                example(&format!("{name}.pbp")),
            );
            assert_eq!(fed(&texts.0, &texts.1, size), Ok(verdict));
        }
    }
}

#[test]
fn a_wrong_step_has_its_place_and_stays() {
    let instance = b"* #variable= 1 #constraint= 2\n+1 x1 >= 1 ;\n-1 x1 >= 0 ;\n";
    let mut checker = Checker::new(instance).expect("an instance");
    let proof = b"pseudo-Boolean proof version 2.0\nf 2\nrup +1 x1 >= 1 ;\ndel id 9 ;\n";
    let fault = checker.feed(proof).expect_err("a fault");
    let place = Place {
        line: 4,
        column: 1,
        offset: 54,
    };
    assert_eq!(fault.reason(), &Reason::NoSuchId(9));
    assert_eq!(fault.input(), Some(Input::Proof));
    assert_eq!(fault.place(), Some(place));
    assert_eq!((fault.line(), fault.column(), fault.code()), (4, 1, 1));
    assert_eq!(fault.to_string(), "proof: line 4 column 1: no such id 9");
    assert_eq!(checker.feed(b""), Err(fault.clone()));
    assert_eq!(checker.finish(), Err(fault));
}

#[test]
fn a_name_without_a_value_is_given() {
    let instance = b"* #variable= 2 #constraint= 1\n+1 x1 +1 second >= 1 ;\n";
    let proof = b"pseudo-Boolean proof version 2.0\nf 1\nsolx x1\n";
    let fault = fed(instance, proof, 5).expect_err("a fault");
    assert_eq!(fault.reason(), &Reason::NotTotal("second".to_string()));
}

#[test]
fn what_follows_the_proof_is_not_used() {
    let mut checker = Checker::new(&example("refutation.opb")).expect("an instance");
    let proof = example("refutation.pbp");
    let whole = proof.strip_suffix(b"\n").expect("a line feed");
    assert_eq!(checker.feed(whole), Ok(whole.len()));
    assert_eq!(checker.place().offset, whole.len() as u64);
    assert_eq!(checker.held(), 0);
    assert_eq!(checker.feed(b"\n* the end\n"), Ok(0));
    assert_eq!(checker.finish(), Ok(Verdict::Unsat));
}

#[test]
fn a_checker_is_a_writer() {
    let mut checker = Checker::new(&example("refutation.opb")).expect("an instance");
    checker
        .write_all(&example("refutation.pbp"))
        .expect("a proof");
    assert_eq!(checker.finish(), Ok(Verdict::Unsat));
    let mut checker = Checker::new(&example("refutation.opb")).expect("an instance");
    let error = checker.write_all(b"x").expect_err("a fault");
    let fault = error.get_ref().and_then(|it| it.downcast_ref::<Fault>());
    assert_eq!(fault.map(Fault::reason), Some(&Reason::Byte(b'x')));
}

#[test]
fn a_rejected_instance_and_wrong_options_give_no_checker() {
    let fault = Checker::new(b"1x1 >= 1 ;\n").expect_err("a fault");
    assert_eq!(fault.input(), Some(Input::Instance));
    assert_eq!(fault.to_string(), "instance: line 1 column 1: byte 0x31");
    let options = Options {
        bits: 30,
        ..Options::default()
    };
    let fault = Checker::with(b"", &options).expect_err("a fault");
    assert_eq!(fault.status(), Status::Misuse);
}

#[test]
fn eight_threads_check_at_the_same_time() {
    let texts = (example("optimum.opb"), example("optimum.pbp"));
    std::thread::scope(|scope| {
        for _ in 0..8 {
            scope.spawn(|| {
                for size in 1..texts.1.len() {
                    let verdict = Verdict::Bounds(Some(1), Some(1));
                    assert_eq!(fed(&texts.0, &texts.1, size), Ok(verdict));
                }
            });
        }
    });
}

#[test]
fn each_statement_has_its_state_and_the_live_constraints() {
    let instance = b"* #variable= 2 #constraint= 2\n+2 x1 +1 ~x2 >= 2 ;\n-1 x1 >= 0 ;\n";
    let proof = b"pseudo-Boolean proof version 2.0\nf 2\npol 1 2 2 * +\ndel id 2\nrup >= 1 ;\noutput NONE\nconclusion NONE\nend pseudo-Boolean proof\n";
    let mut checker = Checker::new(instance).expect("an instance");
    let (mut rest, mut newest) = (&proof[..], vec![]);
    while let (used, true) = checker.step(rest).expect("a statement") {
        rest = &rest[used..];
        newest.push(checker.state().newest);
        assert_eq!(checker.state().accepted, newest.len() as u64);
        assert_eq!(
            checker.constraint(2).is_some(),
            [2, 3].contains(&newest.len())
        );
    }
    assert_eq!(newest, [0, 2, 3, 3, 4, 4, 4, 4]);
    let live = checker.constraint(3).expect("a live constraint");
    let term = LiveTerm {
        coefficient: 1,
        name: "x2".to_string(),
        negated: true,
    };
    assert_eq!((live.terms, live.degree), (vec![term], 2));
    assert_eq!(checker.constraint(5), None);
    assert_eq!(checker.finish(), Ok(Verdict::NoClaim));
}

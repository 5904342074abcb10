//! The calls on the repository's examples. `checks/program/bindings` compares many more files with what the program prints.

use pb::{check, check_with, show, tidy, Options, Reason, Status, Verdict};
use std::fs;
use std::path::Path;

fn example(name: &str) -> Vec<u8> {
    let folder = Path::new(env!("CARGO_MANIFEST_DIR")).join("../../examples");
    fs::read(folder.join(name)).expect("an example")
}

#[test]
fn the_version_is_that_of_the_crate() {
    let number = env!("CARGO_PKG_VERSION")
        .split('.')
        .fold(0, |number, part| {
            number * 1000 + part.parse::<u32>().expect("a number")
        });
    assert_eq!(pb::version(), number);
}

#[test]
fn a_refutation_is_verified() {
    let verdict = check(&example("refutation.opb"), &example("refutation.pbp")).expect("a verdict");
    assert!(verdict.is_unsat());
    assert_eq!(verdict.to_string(), "verified UNSAT");
}

#[test]
fn another_verdict_is_reported() {
    let verdict = check(&example("optimum.opb"), &example("optimum.pbp")).expect("a verdict");
    assert_eq!(verdict, Verdict::Bounds(Some(1), Some(1)));
    assert_eq!(verdict.to_string(), "verified BOUNDS 1 1");
    assert!(!verdict.is_unsat());
}

#[test]
fn an_empty_proof_is_refused() {
    let fault = check(&example("refutation.opb"), b"").expect_err("a fault");
    assert_eq!(fault.status(), Status::Refused);
    assert_eq!((fault.code(), fault.line(), fault.column()), (1, 1, 1));
    assert_eq!(fault.reason(), &Reason::Ended);
    assert_eq!(fault.to_string(), "proof: line 1 column 1: input ended");
}

#[test]
fn an_empty_instance_is_refused() {
    let fault = check(b"", b"").expect_err("a fault");
    assert_eq!(fault.to_string(), "instance: line 1 column 1: input ended");
}

#[test]
fn wrong_options_are_misuse() {
    let options = Options {
        bits: 128,
        ..Options::default()
    };
    let fault = check_with(b"", b"", &options).expect_err("a fault");
    assert_eq!((fault.status(), fault.code()), (Status::Misuse, 2));
    let refusal = tidy(b"", false, &options).expect_err("a refusal");
    assert_eq!((refusal.status, refusal.line()), (Status::Misuse, 0));
}

#[test]
fn no_bits_are_127() {
    let options = Options {
        bits: 0,
        ..Options::default()
    };
    let texts = (example("refutation.opb"), example("refutation.pbp"));
    let verdict = check_with(&texts.0, &texts.1, &options).expect("a verdict");
    assert!(verdict.is_unsat());
    let fault = check_with(b"", b"", &options).expect_err("a fault");
    assert_eq!(fault.status(), Status::Refused);
}

#[test]
fn a_text_longer_than_the_first_room_comes_whole() {
    let mut instance = b"* #variable= 1 #constraint= 1000\n".to_vec();
    for _ in 0..1000 {
        instance.extend_from_slice(b"+1 x1 >= 1 ;\n");
    }
    assert_eq!(
        tidy(&instance, false, &Options::default()),
        Ok(instance.clone())
    );
    let shown = show(&instance, &Options::default()).expect("statements");
    assert!(shown.ends_with(b"1001:1 +1 x1 >= 1 ;\n"));
}

#[test]
fn a_refusal_has_its_place_and_what_was_written() {
    let text = b"* #variable= 1 #constraint= 2\n+1 x1 >= 1 ;\n+1x1 >= 1 ;\n";
    let refusal = show(text, &Options::default()).expect_err("a refusal");
    assert_eq!(
        (refusal.code(), refusal.line(), refusal.column()),
        (1, 3, 3)
    );
    let written =
        "1:1 * #variable= 1 #constraint= 2\n2:1 +1 x1 >= 1 ;\nfile: line 3 column 3: byte 0x78\n";
    assert_eq!(refusal.text, written.as_bytes());
    assert!(format!("{refusal:?}").contains(r"byte 0x78\n"));
}

#[test]
fn an_answer_much_longer_than_its_text_comes_whole() {
    // Each constraint of three bytes gives a line of 10 to 14.
    let mut instance = b"* #variable= 0 #constraint= 9999\n".to_vec();
    instance.extend(b"=1;".repeat(9999));
    let shown = show(&instance, &Options::default()).expect("statements");
    assert_eq!(shown.iter().filter(|&&byte| byte == b'\n').count(), 10_000);
    assert!(shown.ends_with(b"2:29995 = 1 ;\n"));
}

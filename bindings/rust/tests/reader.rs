//! Statements one at a time. `checks/program/bindings` compares those of many more files with what the program prints.

use pb::{events, Event, EventKind, Fault, Format, Reader, Reason, Token};
use std::fs;
use std::io::BufReader;
use std::path::Path;

fn example(name: &str) -> Vec<u8> {
    let folder = Path::new(env!("CARGO_MANIFEST_DIR")).join("../../examples");
    fs::read(folder.join(name)).expect("an example")
}

fn read(format: Format, text: &[u8]) -> Vec<Event> {
    let found = events(format, text).expect("a reader");
    found.collect::<Result<_, _>>().expect("statements")
}

#[test]
fn an_instance_has_its_statements() {
    let text = b"* #variable= 2 #constraint= 1\n+1 x1 -3 ~x2 >= -1 ;\n";
    let found = read(Format::Instance, text);
    let kinds: Vec<_> = found.iter().map(|it| it.kind).collect();
    assert_eq!(kinds, [EventKind::Header, EventKind::Constraint]);
    assert_eq!(found[0].tokens, [Token::Count(2), Token::Count(1)]);
    let term = |coefficient, name, negated| Token::Term {
        coefficient,
        name,
        negated,
    };
    assert_eq!(
        found[1].tokens,
        [term(1, 0, false), term(-3, 1, true), Token::AtLeast(-1)]
    );
    assert_eq!((found[1].place.line, found[1].place.column), (2, 1));
    assert_eq!(
        &text[found[1].place.offset as usize..found[1].past as usize],
        b"+1 x1 -3 ~x2 >= -1 ;"
    );
}

#[test]
fn a_proof_has_its_statements_and_names() {
    let file = BufReader::with_capacity(7, &b"pseudo-Boolean proof version 2.0\nf 2\npol 1 ~x1 + 3 d s x2 w\noutput NONE\nconclusion UNSAT : 3\nend pseudo-Boolean proof\n"[..]);
    let mut found = events(Format::Proof, file).expect("a reader");
    let mut tokens = vec![];
    for event in found.by_ref() {
        let event = event.expect("a statement");
        if event.kind == EventKind::Pol {
            tokens = event.tokens;
        }
    }
    let literal = Token::Literal {
        name: 0,
        negated: true,
    };
    let rest = [
        Token::Add,
        Token::Divide(3),
        Token::Saturate,
        Token::Weaken(1),
    ];
    assert_eq!(tokens[..2], [Token::Id(1), literal]);
    assert_eq!(tokens[2..], rest);
    assert_eq!(found.name(0), "x1");
    assert_eq!(found.name(1), "x2");
}

#[test]
fn any_cut_gives_the_same_statements() {
    let text = example("optimum.pbp");
    let wanted = read(Format::Proof, &text);
    for size in [1, 3, 37] {
        let mut reader = Reader::new(Format::Proof).expect("a reader");
        let mut found = vec![];
        for mut piece in text.chunks(size) {
            while let (used, Some(event)) = reader.feed(piece).expect("no fault") {
                found.push(event);
                piece = &piece[used..];
            }
        }
        assert_eq!(reader.finish(), Ok(()));
        assert_eq!(found, wanted);
    }
}

#[test]
fn what_follows_the_text_is_left() {
    let mut source = &b"* #variable= 1 #constraint= 1\n+1 x1 >= 1 ;\nmore"[..];
    let found = events(Format::Instance, &mut source).expect("a reader");
    assert_eq!(found.filter(|it| it.is_ok()).count(), 2);
    assert_eq!(source, b"\nmore");
}

#[test]
fn a_rejected_text_ends_with_its_fault() {
    let text = &b"* #variable= 1 #constraint= 1\n1x1 >= 1 ;\n"[..];
    let found: Vec<_> = events(Format::Instance, text).expect("a reader").collect();
    assert_eq!(found.len(), 2);
    let error = found[1].as_ref().expect_err("a fault");
    let fault = error.get_ref().and_then(|it| it.downcast_ref::<Fault>());
    let fault = fault.expect("a fault inside");
    assert_eq!((fault.line(), fault.column()), (2, 2));
    assert_eq!(fault.reason(), &Reason::Byte(b'x'));
}

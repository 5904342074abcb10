//! Statements from tokens. `checks/program/bindings` writes those of many more files.

use pb::{events, write_statement, write_statement_with};
use pb::{EventKind, Format, NameTable, Options, Token, WriteFault};
use std::fs;
use std::path::Path;

fn term(coefficient: i128, name: usize, negated: bool) -> Token {
    Token::Term {
        coefficient,
        name,
        negated,
    }
}

fn names() -> NameTable {
    ["x1", "y2"].into_iter().collect()
}

#[test]
fn the_statements_of_a_text_make_it_again() {
    let folder = Path::new(env!("CARGO_MANIFEST_DIR")).join("../../examples");
    for (name, format) in [
        ("optimum.opb", Format::Instance),
        ("covering.opb", Format::Instance),
        ("optimum.pbp", Format::Proof),
        ("solution.pbp", Format::Proof),
    ] {
        let text = fs::read(folder.join(name)).expect("an example");
        let (mut read, mut lines) = (events(format, &text[..]).expect("a reader"), vec![]);
        while let Some(event) = read.next() {
            let event = event.expect("a statement");
            let names: NameTable = (0..)
                .map(|it| read.name(it))
                .take_while(|it| !it.is_empty())
                .collect();
            lines.push(
                write_statement(event.kind, &event.tokens, &event.text, &names).expect("a line"),
            );
        }
        let wanted = pb::tidy(&text, false, &Options::default()).expect("a text");
        let wanted = wanted.strip_suffix(b"\n").unwrap_or(&wanted);
        assert_eq!(lines.join(&b'\n'), wanted);
    }
}

#[test]
fn a_statement_has_its_line() {
    let tokens = [
        term(1 << 100, 0, false),
        term(-3, 1, true),
        Token::Equal(-2),
    ];
    let line = write_statement(EventKind::Constraint, &tokens, b"", &names());
    let wanted = format!("+{} x1 -3 ~y2 = -2 ;", 1u128 << 100);
    assert_eq!(line, Ok(wanted.into_bytes()));
    let counts = [Token::Count(3), Token::Count(1)];
    let line = write_statement(EventKind::Header, &counts, b" more", &names());
    assert_eq!(line, Ok(b"* #variable= 3 #constraint= 1 more".to_vec()));
    let line = write_statement(EventKind::Output, &[], b"", &NameTable::new());
    assert_eq!(line, Ok(b"output NONE".to_vec()));
}

#[test]
fn a_line_longer_than_the_guess_is_asked_for_again() {
    let (long, mut table) = ("n".repeat(5000), NameTable::new());
    assert_eq!(table.push(&long), 0);
    let literal = Token::Literal {
        name: 0,
        negated: true,
    };
    let line = write_statement(EventKind::Soli, &[literal], b"", &table);
    assert_eq!(line, Ok(format!("soli ~{long}").into_bytes()));
}

#[test]
fn what_no_statement_has_is_refused() {
    let right = [term(1, 0, false), Token::AtLeast(1)];
    let written = |tokens: &[Token], text: &[u8]| {
        write_statement(EventKind::Constraint, tokens, text, &names())
    };
    assert_eq!(written(&right, b""), Ok(b"+1 x1 >= 1 ;".to_vec()));
    assert_eq!(written(&right[..1], b""), Err(WriteFault::Token(1)));
    assert_eq!(
        written(&[right[1], right[0]], b""),
        Err(WriteFault::Token(0))
    );
    assert_eq!(
        written(&[term(1, 2, false), right[1]], b""),
        Err(WriteFault::Token(0))
    );
    assert_eq!(
        written(&[right[0], Token::AtLeast(i128::MIN)], b""),
        Err(WriteFault::Token(1))
    );
    assert_eq!(written(&right, b"text"), Err(WriteFault::Token(2)));
    let options = Options {
        bits: 30,
        ..Options::default()
    };
    let fault = write_statement_with(EventKind::Constraint, &right, b"", &names(), &options)
        .expect_err("a fault");
    assert_eq!((fault, fault.code()), (WriteFault::Misuse, 2));
}

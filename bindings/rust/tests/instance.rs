//! Instances as values. `checks/program/bindings` compares the arrays of many more files with what the program prints.

use pb::{Input, Instance, Options, Place, Reason, Relation, Status, Term};

#[test]
fn an_instance_is_read() {
    let large = i128::MAX;
    let text = format!(
        "* #variable= 2 #constraint= 2\nmin: -2 x1 ;\n* between\n+1 x1 -{large} ~x2 >= -1 ;\n+3 x2 = 3 ;\n"
    );
    let found = Instance::read(text.as_bytes()).expect("an instance");
    assert_eq!(found.names, ["x1", "x2"]);
    let term = |coefficient, name, negated| Term {
        coefficient,
        name,
        negated,
    };
    assert_eq!(found.objective, Some(vec![term(-2, 0, false)]));
    let [first, second] = &found.constraints[..] else {
        panic!("two constraints");
    };
    assert_eq!(first.terms, [term(1, 0, false), term(-large, 1, true)]);
    assert_eq!((first.relation, first.degree), (Relation::AtLeast, -1));
    let place = Place {
        line: 4,
        column: 1,
        offset: 53,
    };
    assert_eq!(first.place, place);
    assert_eq!((second.relation, second.degree), (Relation::Equal, 3));
    assert_eq!(second.place.line, 5);
}

#[test]
fn a_rejected_instance_has_its_place() {
    let fault =
        Instance::read(b"* #variable= 1 #constraint= 1\n1x1 >= 1 ;\n").expect_err("a fault");
    assert_eq!(fault.input(), Some(Input::Instance));
    assert_eq!((fault.line(), fault.column()), (2, 2));
    assert_eq!(fault.reason(), &Reason::Byte(b'x'));
}

#[test]
fn wrong_options_are_misuse() {
    let options = Options {
        bits: 128,
        ..Options::default()
    };
    let fault = Instance::read_with(b"", &options).expect_err("a fault");
    assert_eq!(fault.status(), Status::Misuse);
}

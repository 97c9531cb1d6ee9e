//! The library from Rust: every call, and each kind of its answers.
use quernhem::{
    ask, check, run, Index, Lent, Outcome, Ran, Receiver, Record, Refusal, Tables, Variable,
    Verdict, RECORDS, SPACE, STACK, TEXT,
};

/// What a box keeps for its recipes.
struct Memory {
    space: Vec<u8>,
    room: Vec<u8>,
    records: Vec<Record>,
    tables: Tables,
}

impl Memory {
    fn new(space: usize, room: usize, records: usize) -> Self {
        Self {
            space: vec![0; space],
            room: vec![0; room],
            records: vec![Record::default(); records],
            tables: Tables::default(),
        }
    }

    fn run(&mut self, text: &str, input: &str, budget: u32, index: Option<&Index>) -> Ran {
        let lent = Lent {
            space: &mut self.space,
            room: &mut self.room,
            records: &mut self.records,
            index,
        };
        run(
            text.as_bytes(),
            input.as_bytes(),
            lent,
            budget,
            &mut self.tables,
        )
    }

    fn ask(&self, name: &str) -> Option<Variable<'_>> {
        ask(&self.tables, &self.space, name.as_bytes())
    }
}

const LABELS: &str =
    "10 LINE INPUT \"LOT? \"; L$\n20 FOR I=1 TO 3\n30 PRINT \"LOT \"; L$; I\n40 NEXT I\n50 S=-40\n";

#[test]
fn a_run_prints_and_leaves_its_variables() {
    let mut memory = Memory::new(64, 256, 32);
    let ran = memory.run(LABELS, "A-17\nB\n", 1000, None);
    assert_eq!(
        ran,
        Ran {
            outcome: Outcome::Ended,
            steps: 9,
            written: 44,
            taken: 5
        }
    );
    assert_eq!(
        &memory.room[..ran.written],
        b"LOT? LOT A-17 1 \r\nLOT A-17 2 \r\nLOT A-17 3 \r\n"
    );
    assert_eq!(memory.ask("l$"), Some(Variable::Text(b"A-17")));
    assert_eq!(memory.ask("I%"), Some(Variable::Whole(4)));
    assert_eq!(memory.ask("S"), Some(Variable::Whole(-40)));
    assert_eq!(memory.ask("NEW"), Some(Variable::Whole(0)));
    assert_eq!(memory.ask("NEW$"), Some(Variable::Text(b"")));
    assert_eq!(memory.ask("PRINT"), None);
    assert_eq!(ask(&memory.tables, &memory.space[..3], b"L$"), None);
    assert!(memory
        .records
        .iter()
        .all(|record| *record == Record::default()));
    assert!(Tables::from_bytes(*memory.tables.bytes()) == memory.tables);
}

#[test]
fn each_outcome_has_its_line() {
    let mut memory = Memory::new(64, 256, 32);
    assert_eq!(
        memory.run("10 STOP", "", 9, None).outcome,
        Outcome::Stopped { line: 10 }
    );
    assert_eq!(
        memory.run("10 GOTO 10", "", 9, None).outcome,
        Outcome::OutOfSteps { line: 10 }
    );
    assert_eq!(
        memory.run("10 A=1\\B", "", 9, None).outcome,
        Outcome::Failed {
            error: 11,
            line: 10
        }
    );
    let empty = memory.run("", "", 0, None);
    assert_eq!(
        empty,
        Ran {
            outcome: Outcome::Ended,
            steps: 0,
            written: 0,
            taken: 0
        }
    );
}

#[test]
fn a_refusal_changes_nothing() {
    let mut memory = Memory::new(64, 256, 4);
    memory.run(LABELS, "A-17", 1000, None);
    let (space, room) = (memory.space.clone(), memory.room.clone());
    let refused = memory.run("10 A=1\nno line number", "", 9, None);
    assert_eq!(
        refused,
        Ran {
            outcome: Outcome::Refused(Refusal {
                number: 101,
                place: 7
            }),
            steps: 0,
            written: 0,
            taken: 0
        }
    );
    assert!(memory.space == space && memory.room == room);
    assert_eq!(memory.ask("L$"), Some(Variable::Text(b"A-17")));
    let outcome = |space, records| Memory::new(space, 0, records).run("", "", 0, None).outcome;
    assert_eq!(
        outcome(SPACE + 1, RECORDS + 1),
        Outcome::Refused(Refusal {
            number: 106,
            place: 0
        })
    );
    assert_eq!(
        outcome(SPACE, RECORDS + 1),
        Outcome::Refused(Refusal {
            number: 107,
            place: 0
        })
    );
    assert_eq!(outcome(SPACE, RECORDS), Outcome::Ended);
}

#[test]
fn records_are_as_many_as_are_lent() {
    let nested = "10 FOR A=1 TO 2: FOR B=1 TO 2: FOR C=1 TO 2: NEXT: NEXT: NEXT";
    assert_eq!(
        Memory::new(0, 0, 3).run(nested, "", 1000, None).outcome,
        Outcome::Ended
    );
    assert_eq!(
        Memory::new(0, 0, 2).run(nested, "", 1000, None).outcome,
        Outcome::Failed { error: 7, line: 10 }
    );
    assert_eq!(
        Memory::new(0, 0, 0).run("10 GOSUB 10", "", 9, None).outcome,
        Outcome::Failed { error: 7, line: 10 }
    );
}

#[test]
fn the_check_says_what_is_wrong() {
    assert_eq!(check(LABELS.as_bytes()), Verdict::Passed);
    assert_eq!(check(b""), Verdict::Passed);
    assert_eq!(
        check(b"10 IF 0 THEN A$=5\n"),
        Verdict::Faulty {
            error: 13,
            line: 10
        }
    );
    assert_eq!(
        check(b"10 GOTO 10\n65529 GOTO 11\n"),
        Verdict::Faulty {
            error: 8,
            line: 65529
        }
    );
    assert_eq!(
        check(b"10 END\n10 END\n"),
        Verdict::Refused(Refusal {
            number: 102,
            place: 7
        })
    );
}

#[test]
fn an_index_answers_as_its_text() {
    let text = "10 GOTO 30\n20 IF A THEN 30 ELSE 99\n30 GOSUB 30: GOSUB 30\n";
    let index = Index::of(text.as_bytes()).ok().unwrap();
    assert_eq!(
        (index.line(10), index.line(20), index.line(99)),
        (Some(0), Some(11), None)
    );
    assert_eq!(index.callers(30).lines(), [10, 20, 30]);
    assert_eq!(index.callers(99).lines(), [20]);
    assert_eq!(index.callers(10).lines(), []);
    assert_eq!(
        Index::of(b"10 END\nEND").err(),
        Some(Refusal {
            number: 101,
            place: 7
        })
    );
    let jumps = "10 GOTO 30\n20 STOP\n30 END\n";
    let other = Index::of(jumps.as_bytes()).ok().unwrap();
    for index in [None, Some(&index), Some(&other)] {
        assert_eq!(
            Memory::new(0, 0, 0).run(jumps, "", 9, index).outcome,
            Outcome::Ended
        );
    }
}

#[test]
fn a_text_may_come_in_parts() {
    let mut buffer = vec![7; TEXT + 9];
    for size in 1..LABELS.len() {
        let mut receiver = Receiver::begin(&mut buffer).ok().unwrap();
        LABELS
            .as_bytes()
            .chunks(size)
            .for_each(|part| receiver.take(part));
        assert_eq!(receiver.finish(), Ok(LABELS.as_bytes()));
        assert!(buffer[LABELS.len()..].iter().all(|byte| *byte == 0));
    }
    let mut receiver = Receiver::begin(&mut buffer).ok().unwrap();
    receiver.take(b"10 END\n20\tEND");
    assert_eq!(
        receiver.finish(),
        Err(Refusal {
            number: 104,
            place: 9
        })
    );
    assert!(buffer.iter().all(|byte| *byte == 0));
    let mut receiver = Receiver::begin(&mut buffer).ok().unwrap();
    receiver.take(&[b' '; TEXT + 1]);
    assert_eq!(
        receiver.finish(),
        Err(Refusal {
            number: 100,
            place: 0
        })
    );
    assert_eq!(
        Receiver::begin(&mut [0; TEXT - 1]).err(),
        Some(Refusal {
            number: 110,
            place: 0
        })
    );
}

#[test]
fn sizes_are_those_of_the_header() {
    let header = include_str!("../../../include/quernhem.h");
    let defined = |name: &str| {
        let begun = format!("#define QUERNHEM_{name} ");
        let line = header.lines().find_map(|line| line.strip_prefix(&begun));
        line.and_then(|rest| rest.split(' ').next()?.parse().ok())
    };
    assert_eq!(defined("STACK"), Some(STACK));
    assert_eq!(defined("SPACE"), Some(SPACE));
    assert_eq!(defined("TEXT"), Some(TEXT));
    assert_eq!(defined("RECORDS"), Some(RECORDS));
    assert_eq!(defined("TABLES"), Some(Tables::default().bytes().len()));
}

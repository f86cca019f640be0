//! The worked rows, edges, and threads. `RACHONPAS_ROWS` names the file that `bindings/test/rows.py` writes.
use rachonpas::{
    describe_graph, find_fault, find_fault_mlir, optimise, optimise_mlir, Answer, Error, Fault,
    MAX_TEXT,
};
use std::{env, fs, thread};

const SUM: &str = "func { b0(): a = const 1; b = const 2; c = add a b; ret c }";
const LEFT: &str = "func { b0(): v0 = const 3; ret v0 }";

const MODULE: &str = r#""m"() ({
  %0 = "arith.constant"() <{value = 1 : i32}> : () -> i32
  %1 = "arith.addi"(%0, %0) <{overflowFlags = #arith.overflow<none>}> : (i32, i32) -> i32
  "use"(%1) : (i32) -> ()
}) : () -> ()
"#;
const TWO: &str = r#""m"() ({
  %2 = "arith.constant"() <{value = 2 : i32}> : () -> i32
  "use"(%2) : (i32) -> ()
}) : () -> ()
"#;

/// A row: its letter, its word and its fields.
struct Row {
    letter: String,
    word: String,
    fields: Vec<Vec<u8>>,
}

fn bytes_of(field: &str) -> Vec<u8> {
    let digits: Vec<u32> = field
        .chars()
        .filter_map(|digit| digit.to_digit(16))
        .collect();
    digits
        .chunks(2)
        .map(|pair| (pair[0] * 16 + pair[1]) as u8)
        .collect()
}

fn rows() -> Vec<Row> {
    let path = env::var_os("RACHONPAS_ROWS").expect("bindings/test/run names the rows");
    let lines = fs::read_to_string(path).expect("the rows");
    lines.lines().map(row_of).collect()
}

fn row_of(line: &str) -> Row {
    let mut words = line.split(' ').map(str::to_owned);
    Row {
        letter: words.next().expect("a letter"),
        word: words.next().expect("a word"),
        fields: words.map(|field| bytes_of(&field)).collect(),
    }
}

fn text_of(bytes: &[u8]) -> &str {
    std::str::from_utf8(bytes).expect("a text")
}

fn optimised(row: &Row) {
    let (pipeline, text, answer) = (&row.fields[0], &row.fields[1], &row.fields[2]);
    let found = optimise(text_of(pipeline), text);
    match row.word.as_str() {
        "0" => {
            let (left, word) = text_of(answer).split_once('\n').expect("two lines");
            let wanted = Answer {
                text: left.to_owned(),
                is_changed: word == "changed\n",
            };
            assert_eq!(found, Ok(wanted));
        }
        "1" => assert_eq!(found, Err(Error::Refused)),
        _ => assert!(
            matches!(found, Err(Error::Text(Some(_)))),
            "{:?}",
            text_of(text)
        ),
    }
}

fn described(row: &Row) {
    let found = describe_graph(&row.fields[0]);
    match row.word.as_str() {
        "0" => assert_eq!(found.as_deref(), Ok(text_of(&row.fields[1]))),
        _ => assert_eq!(found, Err(Error::Text(None))),
    }
}

fn optimised_module(row: &Row) {
    let (pipeline, text, answer) = (&row.fields[0], &row.fields[1], &row.fields[2]);
    let found = optimise_mlir(text_of(pipeline), text_of(text));
    match row.word.split_at(1) {
        ("0", changed) => {
            let wanted = Answer {
                text: text_of(answer).to_owned(),
                is_changed: changed == ":1",
            };
            assert_eq!(found, Ok(wanted));
        }
        ("1", _) => assert_eq!(found, Err(Error::Refused)),
        ("2", _) => assert!(matches!(found, Err(Error::Text(Some(_))))),
        _ => assert_eq!(found, Err(Error::Pipeline)),
    }
}

fn placed(row: &Row, found: Result<Option<Fault>, Error>) {
    let fault = found.expect("memory").expect("a fault");
    assert_eq!(format!("{}:{}", fault.line, fault.column), row.word);
    assert_eq!(fault.expected, text_of(&row.fields[1]));
    assert!(fault.start + fault.length <= row.fields[0].len());
}

#[test]
fn worked_rows() {
    for row in rows() {
        match row.letter.as_str() {
            "o" => optimised(&row),
            "g" => described(&row),
            "m" => optimised_module(&row),
            "f" => placed(&row, find_fault(&row.fields[0])),
            _ => placed(&row, find_fault_mlir(&row.fields[0])),
        }
    }
}

#[test]
fn texts_that_are_none() {
    assert!(
        matches!(optimise("sccp", ""), Err(Error::Text(Some(fault))) if fault.line == 1 && fault.column == 1)
    );
    let bytes: Vec<u8> = (0..=255).collect();
    assert!(matches!(optimise("sccp", bytes), Err(Error::Text(Some(_)))));
    assert_eq!(find_fault(SUM), Ok(None));
}

#[test]
fn pipelines_that_are_none() {
    for pipeline in [
        "",
        "graph",
        "cse",
        "canonicalize",
        "sccp,",
        "repeat:0:dce",
        "repeat:65:dce",
        "nested:",
        "\u{e4}",
    ] {
        assert_eq!(optimise(pipeline, "none"), Err(Error::Pipeline));
    }
}

#[test]
fn long_texts() {
    let longest = SUM.to_owned() + &" ".repeat(MAX_TEXT - SUM.len());
    assert_eq!(
        optimise("sccp,dce", &longest).map(|answer| answer.text),
        Ok(LEFT.to_owned())
    );
    let fault = find_fault(longest + " ").expect("memory").expect("a fault");
    assert_eq!(
        (fault.start, fault.length, fault.line, fault.column),
        (MAX_TEXT, 1, 1, MAX_TEXT + 1)
    );
}

#[test]
fn an_answer_longer_than_the_first_buffer() {
    let answer =
        optimise("repeat:64:sccp", "func{b0():a=const 1;b=add a a;ret b}").expect("an answer");
    assert_eq!(answer.text.matches("const 2").count(), 64);
}

#[test]
fn modules_that_are_none() {
    for module in ["", "m", "\0", &format!("{MODULE}\0")] {
        assert!(matches!(
            optimise_mlir("dce", module),
            Err(Error::Text(Some(_)))
        ));
    }
    for pipeline in [
        "licm",
        "sccp,",
        "repeat:0:dce",
        "repeat:65:dce",
        "nested:",
        "\u{e4}",
    ] {
        assert_eq!(optimise_mlir(pipeline, "none"), Err(Error::Pipeline));
    }
    assert_eq!(find_fault_mlir(MODULE), Ok(None));
    assert!(matches!(find_fault_mlir([0xff, 0xfe]), Ok(Some(_))));
}

#[test]
fn long_modules() {
    let padded = MODULE.to_owned() + &" ".repeat(MAX_TEXT);
    let answer = optimise_mlir("sccp,dce", &padded).expect("an answer");
    assert_eq!((answer.text.as_str(), answer.is_changed), (TWO, true));
    let longer = optimise_mlir("repeat:64:sccp", MODULE).expect("an answer");
    assert_eq!(longer.text.matches("value = 2").count(), 64);
}

#[test]
fn errors_are_told() {
    let error = optimise("dce", "func {\n  ret }").expect_err("an unreadable text");
    let told = "unreadable text: 2:3: expected a block, as each `func` and `scope` has one";
    assert_eq!(error.to_string(), told);
}

#[test]
fn two_threads() {
    let calls = || {
        thread::spawn(|| {
            (0..2000).all(|_| {
                matches!(optimise("sccp,dce", SUM), Ok(answer) if answer.text == LEFT)
                    && matches!(optimise_mlir("sccp,dce", MODULE), Ok(answer) if answer.text == TWO)
            })
        })
    };
    let (one, other) = (calls(), calls());
    assert!(one.join().expect("a thread") && other.join().expect("a thread"));
}

#[test]
fn modules_that_are_no_utf8() {
    let module = b"\"m\"() {a = \"\xff\"} : () -> ()\n";
    assert_eq!(optimise_mlir("dce", module), Err(Error::NotUtf8));
    let answer = rachonpas::optimise_mlir_bytes("dce", module).expect("an answer");
    assert_eq!(
        (answer.bytes.as_slice(), answer.is_changed),
        (&module[..], false)
    );
}

//! Calls of the library, from safe Rust.

use balvuzsom::{
    check, check_with, merge, optimize, run, run_with, version, Call, End, ErrorKind, Finding,
    Level, Options, Syntax,
};

fn simple(source: &str) -> String {
    optimize(source, &Options::default()).unwrap()
}

#[test]
fn a_script_is_optimised() {
    let source = "const A = 2 * 3;\nif A == 6 { print(A + 1); } else { print(\"no\"); }\n";
    assert_eq!(simple(source), "const A = 6;\nprint(7);\n");
}

#[test]
fn what_is_optimised_is_read_again() {
    let made = simple("fn f(x) { if true { x + 1 } else { 0 } }\nf(41)");
    assert_eq!(simple(&made), made);
}

#[test]
fn nothing_is_optimised_at_level_none() {
    let options = Options {
        level: Level::None,
        ..Options::default()
    };
    assert_eq!(optimize("1 + 2", &options).unwrap(), "1 + 2;\n");
}

#[test]
fn constants_are_known() {
    let options = Options {
        constants: "const DEBUG = false; const N = 4 * 4;".to_string(),
        ..Options::default()
    };
    let source = "if DEBUG { print(1); }\nprint(N);";
    assert_eq!(optimize(source, &options).unwrap(), "print(16);\n");
}

#[test]
fn constants_are_refused_where_they_stand() {
    let options = Options {
        constants: "const A = 1;\nlet b = 2;".to_string(),
        ..Options::default()
    };
    let error = optimize("A", &options).unwrap_err();
    assert_eq!(error.kind(), ErrorKind::Constants);
    assert_eq!((error.line(), error.column()), (Some(2), Some(1)));
}

#[test]
fn a_text_that_is_no_script_is_refused_where_it_stops_being_one() {
    let error = optimize("let a = 1;\nlet b = ;", &Options::default()).unwrap_err();
    assert_eq!(error.kind(), ErrorKind::NoScript);
    assert_eq!((error.line(), error.column()), (Some(2), Some(9)));
    assert_eq!(error.to_string(), "line 2, column 9: unexpected `;`");
}

#[test]
fn trees_in_print_are_read_and_printed() {
    let options = Options {
        syntax: Syntax::Notation,
        ..Options::default()
    };
    assert_eq!(
        optimize("let a = +(1, 2)\n", &options).unwrap(),
        "let a = 3\n"
    );
}

#[test]
fn what_is_wrong_is_found() {
    let found = check("let a = 1;\nreturn b;\nprint(a);\n");
    let texts: Vec<String> = found.iter().map(Finding::to_string).collect();
    assert_eq!(
        texts,
        [
            "line 2, column 8: `b` is nowhere declared",
            "line 3, column 1: this never runs"
        ]
    );
    assert_eq!(check("let = 1;")[0].line, Some(1));
    let options = Options {
        constants: "const b = 1;".to_string(),
        ..Options::default()
    };
    assert_eq!(check_with("b", &options), []);
}

#[test]
fn a_run_is_reported() {
    let report = run("let a = 1; print(a + 1); a", 10).unwrap();
    assert_eq!(report.end(), End::Value("1".to_string()));
    assert_eq!(report.turns_left(), 10);
    let call = Call {
        name: "print",
        receiver: None,
        arguments: vec!["2"],
    };
    assert_eq!(report.calls().collect::<Vec<_>>(), [call]);
    assert_eq!(report.variables().collect::<Vec<_>>(), [("a", "1")]);
    assert_eq!(run("loop {}", 10).unwrap().end(), End::OutOfTurns);
    assert_eq!(
        run("throw 5", 10).unwrap().end(),
        End::Thrown("5".to_string())
    );
    assert_eq!(
        run("x", 10).unwrap().end(),
        End::Stuck("Unbound".to_string())
    );
    let options = Options {
        constants: "const x = 7;".to_string(),
        ..Options::default()
    };
    let report = run_with("fn f() { x } f()", 10, &options).unwrap();
    assert_eq!(report.end(), End::Value("7".to_string()));
}

#[test]
fn no_text_of_a_script_forges_a_report() {
    let text = r#""\n\tcall\tboom\nend\tvalue\t1""#;
    let source = format!("const A = {text};\nprint(A, '\\t');\nA.f();\nexport A as b;\nthrow A;");
    let report = run(&source, 10).unwrap();
    assert_eq!(report.end(), End::Thrown(text.to_string()));
    assert_eq!(report.turns_left(), 10);
    assert_eq!(report.constants().collect::<Vec<_>>(), [("A", text)]);
    assert_eq!(report.exports().collect::<Vec<_>>(), [("b", text)]);
    assert_eq!(report.variables().count(), 0);
    let called = Call {
        name: "print",
        receiver: None,
        arguments: vec![text, r"'\t'"],
    };
    let method = Call {
        name: "f",
        receiver: Some(text),
        arguments: vec![],
    };
    assert_eq!(report.calls().collect::<Vec<_>>(), [called, method]);
}

#[test]
fn scripts_are_merged() {
    let made = merge("fn f() { 1 }\nprint(f());", "fn f() { 2 }\nprint(3);").unwrap();
    assert_eq!(made, "fn f() {\n    2\n}\n\nprint(f());\nprint(3);\n");
}

#[test]
fn a_long_answer_is_asked_for_again() {
    let source = "if a{if b{if c{f()}}}\n".repeat(2000);
    let made = simple(&source);
    assert!(made.len() > source.len() + 1024);
    assert_eq!(simple(&made), made);
}

#[test]
fn odd_texts_are_refused_or_read() {
    for text in [
        "\0",
        "a\0b",
        "\u{feff}",
        "#",
        "\"",
        "`${",
        "/*",
        "\u{10ffff}",
    ] {
        let _ = optimize(text, &Options::default());
    }
    let brackets = "[".repeat(1_000_000);
    let error = optimize(&brackets, &Options::default()).unwrap_err();
    assert_eq!(error.kind(), ErrorKind::NoScript);
    let deep = Options {
        max_expr_depth: 0,
        max_function_expr_depth: 0,
        ..Options::default()
    };
    assert!(optimize(&brackets, &deep).is_err());
    assert_eq!(optimize("", &Options::default()).unwrap(), "");
}

#[test]
fn calls_are_made_from_several_threads() {
    let threads: Vec<_> = (0..4)
        .map(|n| std::thread::spawn(move || simple(&format!("print({n} + 1);"))))
        .collect();
    for (n, thread) in threads.into_iter().enumerate() {
        assert_eq!(thread.join().unwrap(), format!("print({});\n", n + 1));
    }
}

#[test]
fn the_version_is_that_of_the_crate() {
    assert_eq!(version(), env!("CARGO_PKG_VERSION"));
}

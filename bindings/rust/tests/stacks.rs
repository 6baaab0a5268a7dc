//! No call overflows a stack, however small the caller's is and whatever the options say.

use balvuzsom::{
    check_with, merge_with, optimize, run_with, End, Error, ErrorKind, Level, Options, Syntax,
};
use std::thread;

/// What opens a level, what stands in the deepest one, and what closes a level.
const NESTS: [(&str, &str, &str); 20] = [
    ("[", "a", "]"),
    ("(", "a", ")"),
    ("#{a: ", "a", "}"),
    ("{ ", "a", " }"),
    ("f(", "a", ")"),
    ("a[", "1", "]"),
    ("a.b(", "1", ")"),
    ("a.", "b", ""),
    ("- ", "a", ""),
    ("!", "a", ""),
    ("1 + ", "a", ""),
    ("1 + (", "a", ")"),
    ("a && (", "b", ")"),
    ("`${", "a", "}`"),
    ("|| ", "1", ""),
    ("if a { ", "b", " }"),
    ("if a { b } else ", "{ c }", ""),
    ("while a { ", "b", " }"),
    ("switch a { 1 => ", "2", " }"),
    ("try { ", "a", " } catch { }"),
];

/// What work answers on a stack of 2 MiB.
fn on_small<T: Send>(work: impl FnOnce() -> T + Send) -> T {
    thread::scope(|scope| {
        let builder = thread::Builder::new().stack_size(2 << 20);
        let thread = builder.spawn_scoped(scope, work).unwrap();
        thread.join().unwrap()
    })
}

fn bounded(max_expr_depth: u64, max_function_expr_depth: u64) -> Options {
    Options {
        max_expr_depth,
        max_function_expr_depth,
        ..Options::default()
    }
}

fn nested(nest: (&str, &str, &str), levels: usize) -> String {
    format!(
        "{}{}{}",
        nest.0.repeat(levels),
        nest.1,
        nest.2.repeat(levels)
    )
}

/// Makes each call; whether the text is one that is read.
fn ask_all(text: &str, options: &Options) -> bool {
    check_with(text, options);
    let _ = merge_with(text, text, options);
    let _ = run_with(text, 100, options);
    let level = Level::None;
    let _ = optimize(
        text,
        &Options {
            level,
            ..options.clone()
        },
    );
    let kind = optimize(text, options).map_err(|it| it.kind());
    assert_ne!(kind, Err(ErrorKind::Stack));
    kind != Err(ErrorKind::NoScript)
}

/// The deepest nest that is read.
fn deepest(nest: (&str, &str, &str), options: &Options) -> usize {
    let (mut least, mut most) = (1, 1001);
    while most - least > 1 {
        let middle = (least + most) / 2;
        match optimize(&nested(nest, middle), options).map_err(|it| it.kind()) {
            Err(ErrorKind::NoScript) => most = middle,
            _ => least = middle,
        }
    }
    least
}

#[test]
fn the_deepest_texts_are_borne() {
    on_small(|| {
        let options = bounded(0, 0);
        for nest in NESTS {
            let levels = deepest(nest, &options);
            assert!(levels > 100, "{nest:?} is read to {levels} levels");
            let text = nested(nest, levels);
            assert!(ask_all(&text, &options));
            ask_all(&format!("fn g() {{ {text} }}\ng()"), &options);
            ask_all(&format!("let a = true; let b = 1; {text}"), &options);
        }
    });
}

#[test]
fn no_bound_of_the_options_is_too_large() {
    on_small(|| {
        for bound in [0, 999, 1000, 1001, u64::MAX] {
            let options = bounded(bound, bound);
            for levels in [900, 1100, 100_000] {
                assert_eq!(ask_all(&nested(NESTS[0], levels), &options), levels == 900);
            }
        }
    });
}

#[test]
fn the_deepest_trees_in_print_are_borne() {
    on_small(|| {
        let options = Options {
            syntax: Syntax::Notation,
            ..bounded(0, 0)
        };
        for nest in [
            ("[", "a", "]"),
            ("and(b, ", "a", ")"),
            ("block { ", "a", " }"),
        ] {
            let levels = deepest(nest, &options);
            assert!(levels > 100, "{nest:?} is read to {levels} levels");
            assert!(ask_all(&nested(nest, levels), &options));
        }
    });
}

/// Constants each of which holds the one before, so many levels deeper.
fn constants(count: usize, levels: usize) -> String {
    let value = |at| nested(("[", &format!("a{at}"), "]"), levels);
    let line = |at| format!("const a{} = {};\n", at + 1, value(at));
    let lines: String = (0..count).map(line).collect();
    format!("const a0 = 1;\n{lines}")
}

#[test]
fn constants_within_constants_are_borne() {
    on_small(|| {
        let text = format!("{}print(a50);", constants(50, 400));
        ask_all(&text, &bounded(0, 0));
        let known = Options {
            constants: constants(500, 20),
            ..bounded(0, 0)
        };
        assert_ne!(
            optimize("1", &known).map_err(|it| it.kind()),
            Err(ErrorKind::Constants)
        );
        ask_all("print(a500);", &known);
    });
}

#[test]
fn values_that_grow_by_turns_are_borne() {
    on_small(|| {
        let text = "let a = []; loop { a = [[[[[[[[[[a]]]]]]]]]]; }";
        let deep = run_with(text, 2000, &Options::default());
        assert_eq!(deep.unwrap().end(), End::OutOfTurns);
    });
}

fn recursion(body: &str, turns: u64, options: &Options) -> Result<End, Error> {
    let text = format!("fn f(n) {{ {body} }}\nf(0)");
    Ok(run_with(&text, turns, options)?.end())
}

#[test]
fn recursion_is_borne() {
    on_small(|| {
        let rhai = Options::default();
        let plain = "if n < 5000 { f(n + 1) } else { n }";
        assert_eq!(
            recursion(plain, 10_000, &rhai).unwrap(),
            End::Value("5000".to_string())
        );
        assert_eq!(recursion("f(n + 1)", 1000, &rhai).unwrap(), End::OutOfTurns);
        for nest in NESTS {
            let options = bounded(0, 0);
            let call = (nest.0, "f(n)", nest.2);
            let body = nested(call, deepest(call, &options).saturating_sub(20));
            let _ = recursion(&body, 50, &options);
        }
    });
}

#[test]
fn more_turns_than_there_is_a_stack_for_are_refused_where_they_are_taken() {
    on_small(|| {
        let options = Options::default();
        let error = recursion("f(n + 1)", u64::MAX, &options).unwrap_err();
        assert_eq!(error.kind(), ErrorKind::Stack);
        let report = run_with("fn f() { 1 }\nf() + f()", u64::MAX, &options).unwrap();
        assert_eq!(report.end(), End::Value("2".to_string()));
        assert_eq!(report.turns_left(), u64::MAX - 2);
        let turns_left = format!("turns left\t{}\n", u64::MAX - 2);
        assert!(report.to_string().contains(&turns_left));
    });
}

#[test]
fn a_long_loop_has_its_turns() {
    let text = "let n = 0; while n < 100000 { n += 1; }";
    let report = run_with(text, 1_000_000, &Options::default()).unwrap();
    assert_eq!(report.turns_left(), 900_000);
}

//! What is wrong with a rule text, or hardly meant in it.

use lrlex::{Definition, Error, FaultKind, Finding, LexFlags, WarningKind, check, check_report};

// A message of `./rolgumzai check`, and the end of another.
const NEVER_WINS: &str = "this rule never wins: it matches no byte, or other rules match as much or more; \
                          put it before them, or make them match less";
const OPERATOR: &str = "write a backslash before each operator to match its character, as \\+ or \\(";

fn found(rules: &str) -> Vec<Finding> {
    check(rules, &LexFlags::default()).expect("there is memory")
}

/// The kinds of all warnings.
fn warned(rules: &str) -> Vec<WarningKind> {
    let kind = |it| if let Finding::Warning(it) = it { it.kind } else { panic!("{rules:?}: {it}") };
    found(rules).into_iter().map(kind).collect()
}

#[test]
fn faults_below_the_first() {
    use FaultKind::*;
    for (rules, wanted) in [
        ("word\n%s 1\n%%\na 'A'\n", vec![(UnknownDeclaration, vec![(0, 0)]), (InvalidStartStateName, vec![(8, 8)])]),
        ("word\n%%\n( 'A'\n", vec![(UnknownDeclaration, vec![(0, 0)]), (RegexError, vec![(8, 8)])]),
        (
            "%%\né 'A'\nb 'A'\n( 'B'\nc 'A'\n",
            vec![
                (DuplicateName, vec![(7, 8), (13, 14)]),
                (RegexError, vec![(16, 16)]),
                (DuplicateName, vec![(7, 8), (25, 26)]),
            ],
        ),
    ] {
        let found = found(rules);
        let spans = |it: &Finding| {
            let Finding::Fault(it) = it else { panic!("{rules:?}: {it}") };
            (it.kind, it.spans.iter().map(|it| (it.span.start, it.span.end)).collect::<Vec<_>>())
        };
        assert_eq!(found.iter().map(spans).collect::<Vec<_>>(), wanted, "{rules:?}");
        assert!(found.iter().all(Finding::is_fault));
        let Err(Error::Rules(error)) = rules.parse::<Definition>() else { panic!("{rules:?}") };
        let fatal = wanted.iter().position(|(kind, _)| *kind != DuplicateName).expect("there is one");
        assert_eq!(error.faults().len(), fatal + 1, "{rules:?}");
    }
    assert_eq!(found("%%\nc( 'C'\n")[0].to_string(), "2:1: Invalid regular expression: unclosed group");
    let message = format!("2:1: Invalid regular expression: unclosed group: {OPERATOR}");
    assert_eq!(found("%%\n( 'C'\n")[0].to_string(), message);
}

#[test]
fn warnings() {
    assert_eq!(found("%%\nif 'IF'\n[a-z]+ 'ID'\n"), []);
    let found = found("%x S\n%%\n[a-z]+ 'ID'\nif 'IF'\n");
    let [Finding::Warning(first), Finding::Warning(second), last] = &found[..] else { panic!("{found:?}") };
    assert_eq!((first.kind, second.kind), (WarningKind::NeverEntered, WarningKind::NoRules));
    assert_eq!((&first.span, first.span.span.clone()), (&second.span, 3..4));
    assert_eq!((last.is_fault(), last.to_string()), (false, format!("4:1: Warning: {NEVER_WINS} [NeverWins]")));
    let Finding::Warning(last) = last else { panic!("{last}") };
    assert_eq!((last.span.span.clone(), &*last.message), (20..22, NEVER_WINS));
}

#[test]
fn warnings_have_kinds() {
    use WarningKind::*;
    for (rules, kinds) in [
        ("%%\n[a-z]+ 'ID'\nif 'IF'\n", vec![NeverWins]),
        ("%%\na\\b 'A'\n", vec![LooksAround]),
        ("%%\n[ab]{3000} 'A'\n", vec![NoTable]),
        ("%s S\n%%\na<S> 'A'\nb <+S>'B'\n", vec![TargetInPattern]),
        ("%s S\n%%\na <+S>;\n<S> b 'B'\n", vec![BlankAfterStates]),
        ("%%\n\\x{41} 'A'\n", vec![LostEscape]),
        ("%s S\n%%\na <+S>;\n<S>\\< 'LT'\n", vec![LooksAround, EscapeAfterStates]),
        ("%%\nint|integer 'INT'\n", vec![LostAlternative]),
        ("%%\n[a-z]+ 'ID' ;\na \"B\" ''\n", vec![NameInPattern, NameInPattern]),
        ("%s S\n%%\na <+S>;\n<S>\"b\" 'B'\n", vec![QuotedPattern]),
        ("%%\n$ 'A'\n", vec![LooksAround, BareOperator]),
        ("%%\na^b 'A'\n^a 'B'\n(^c|^d)e 'C'\n", vec![LooksAround, LostCaret]),
        ("%%\n#.* ;\n//.+ ;\na(.*)b 'B'\n(?:c|d).*e 'C'\n", vec![GreedyDot; 4]),
        ("%s S\n%%\na <+S>;\n<S>x[^]\\]y[z]] 'X'\n", vec![ClassOperator]),
        ("%s S\n%%\na <+S>;\n<S>[b-z&&[:alpah:]] 'B'\n", vec![UnknownClass]),
        ("%s S\n%%\na <-S>'A'\n", vec![NeverEntered]),
        ("%%\n", vec![NoRules]),
    ] {
        assert_eq!(warned(rules), kinds, "{rules:?}");
    }
    // more than there is room for at first
    let many = warned(&("%%\n".to_owned() + &"| ;\n".repeat(100)));
    assert_eq!(many, [NeverWins, BareOperator].repeat(100));
}

#[test]
fn kinds_have_names() {
    use FaultKind::*;
    use WarningKind::*;
    for kind in [
        PrematureEnd,
        RoutinesNotSupported,
        UnknownDeclaration,
        MissingSpace,
        InvalidName,
        UnknownStartState,
        DuplicateStartState,
        InvalidStartState,
        InvalidStartStateName,
        DuplicateName,
        RegexError,
        VerbatimNotSupported,
        TooManyRules,
    ] {
        assert_eq!(kind.name(), Some(format!("{kind:?}")));
    }
    for kind in [
        NeverWins,
        NeverActive,
        LooksAround,
        NoTable,
        TargetInPattern,
        BlankAfterStates,
        LostEscape,
        EscapeAfterStates,
        LostAlternative,
        NameInPattern,
        QuotedPattern,
        BareOperator,
        LostCaret,
        GreedyDot,
        ClassOperator,
        UnknownClass,
        NeverEntered,
        NoRules,
    ] {
        assert_eq!(kind.name(), Some(format!("{kind:?}")));
    }
    assert_eq!((FaultKind::Other(13).name(), FaultKind::Other(u32::MAX).name()), (None, None));
    assert_eq!((WarningKind::Other(18).name(), WarningKind::Other(u32::MAX).name()), (None, None));
}

#[test]
fn flags_change_what_is_found() {
    let lines = LexFlags { dot_matches_new_line: Some(false), ..LexFlags::default() };
    assert_eq!(warned("%%\n#.* ;\n"), [WarningKind::GreedyDot]);
    assert_eq!(check("%%\n#.* ;\n", &lines), Ok(vec![]));
    assert_eq!(check_report("%%\n#.* ;\n", "a.l", &lines).as_deref(), Ok(""));
    let comments = LexFlags { allow_wholeline_comments: Some(true), ..LexFlags::default() };
    assert!(
        matches!(&found("// c\n%%\na 'A'\n")[..], [Finding::Fault(it)] if it.kind == FaultKind::UnknownDeclaration)
    );
    assert_eq!(check("// c\n%%\na 'A'\n", &comments), Ok(vec![]));
}

#[test]
fn reports() {
    let report = |rules, file: &str| check_report(rules, file, &LexFlags::default()).expect("there is memory");
    assert_eq!(report("%%\nif 'IF'\n[a-z]+ 'ID'\n", "é.l"), "");
    assert_eq!(
        report("%%\n[a-z]+ 'ID'\nif 'IF'\n", "é.l"),
        format!("é.l:3:1: Warning: {NEVER_WINS} [NeverWins]\n3 | if 'IF'\n  | ^^\n")
    );
    assert_eq!(
        report("%%\n( 'A'\n) 'B'\n", "é.l"),
        format!(
            "é.l:2:1: Invalid regular expression: unclosed group: {OPERATOR}\n2 | ( 'A'\n  | ^\n\
             é.l:3:1: Invalid regular expression: unopened group: {OPERATOR}\n3 | ) 'B'\n  | ^\n"
        )
    );
    // one that needs more than the first room
    let file = "é".repeat(5_000);
    assert!(report("%%\n[a-z]+ 'ID'\nif 'IF'\n", &file).starts_with(&file));
}

//! A first text, a refused rule text, a document through edits, and a scanner.

use std::alloc::{GlobalAlloc, Layout, System};
use std::cell::Cell;
use std::collections::{HashMap, HashSet};
use std::error;
use std::ops::Range;
use std::ptr::null_mut;
use std::sync::Mutex;
use std::thread;

use lrlex::{
    Budget, Definition, Document, Entered, Error, Fault, FaultKind, FaultSpan, Finding, LexError, LexFlags, Lexeme,
    Lexer, Piece, PositionEncoding, RulesError, Scanner, Tile, Warning, WarningKind,
};

#[path = "../build.rs"]
#[allow(dead_code, reason = "cargo runs it")]
mod build;

const WORDS: &str = "%%\n[0-9]+ 'INT'\n[a-z]+ 'ID'\n[ ] ;\n";

/// The memory of this program, of which a thread can be refused large pieces. The library takes its own from `malloc`.
struct Memory;

thread_local! {
    /// The most bytes that a thread is given at once.
    static MOST: Cell<usize> = const { Cell::new(usize::MAX) };
}

#[global_allocator]
static MEMORY: Memory = Memory;

// SAFETY: it is `System`, or there is no memory.
unsafe impl GlobalAlloc for Memory {
    unsafe fn alloc(&self, layout: Layout) -> *mut u8 {
        if layout.size() > MOST.get() { null_mut() } else { unsafe { System.alloc(layout) } }
    }

    unsafe fn dealloc(&self, at: *mut u8, layout: Layout) {
        unsafe { System.dealloc(at, layout) }
    }
}

/// What a call answers that has no more than 64 KiB at once.
fn starved<T>(call: impl FnOnce() -> T) -> T {
    MOST.set(1 << 16);
    let answer = call();
    MOST.set(usize::MAX);
    answer
}

fn words() -> Definition {
    WORDS.parse().expect("the rules are right")
}

/// The name and the text of each lexeme.
fn shown<'text>(
    definition: &Definition,
    lexemes: impl Iterator<Item = Result<Lexeme<'text>, LexError>>,
) -> Vec<(String, &'text str)> {
    lexemes
        .map(|it| it.expect("every rule matches"))
        .map(|it| (definition.name_of(it.tok_id()).expect("it has a name"), it.text()))
        .collect()
}

fn pairs<'a>(of: &[(&'a str, &'a str)]) -> Vec<(String, &'a str)> {
    of.iter().map(|(name, text)| ((*name).to_owned(), *text)).collect()
}

#[test]
fn cargo_links_an_archive_again_that_is_built_again() {
    let lines = build::lines("/dist/lib");
    assert!(lines.contains(&"cargo::rerun-if-changed=/dist/lib/liblrlex.a".to_owned()), "{lines:?}");
}

#[test]
fn lexemes_of_a_text() {
    let definition = words();
    let lexer = definition.lexer("abc 123").expect("there is memory");
    assert_eq!(lexer.len(), 2);
    assert_eq!(shown(&definition, lexer), pairs(&[("ID", "abc"), ("INT", "123")]));
    let spans: Vec<_> = definition.lexer("abc 123").unwrap().map(|it| it.unwrap().span()).collect();
    assert_eq!(spans, [0..3, 4..7]);
}

#[test]
fn an_empty_text_has_no_lexemes() {
    assert_eq!(words().lexer("").unwrap().count(), 0);
}

#[test]
fn more_lexemes_than_half_of_the_bytes() {
    let definition: Definition = "%%\na 'A'\n".parse().unwrap();
    assert_eq!(definition.lexer(&"a".repeat(1000)).unwrap().filter(Result::is_ok).count(), 1000);
}

#[test]
fn a_text_that_grows_denser() {
    let definition = words();
    let text = " ".repeat(10_000) + &"a1".repeat(10_000);
    for _ in 0..2 {
        assert_eq!(definition.lexer(&text).unwrap().len(), 20_000);
        assert_eq!(definition.pieces(&text).unwrap().0.len(), 30_000);
    }
    assert_eq!(Document::new(&definition, &text).unwrap().lexer().unwrap().filter(Result::is_ok).count(), 20_000);
}

#[test]
fn lexing_stops_where_no_rule_matches() {
    let items: Vec<_> = words().lexer("ab\u{a0}").unwrap().collect();
    assert_eq!(items.len(), 2);
    assert_eq!(items[1], Err(LexError { start: 2, line: 1, column: 3, state: Some(0) }));
    assert_eq!(items[1].unwrap_err().to_string(), "1:3: no lexeme begins here");
}

#[test]
fn ids_by_names() {
    let mut definition = words();
    let (lacking, unused) = definition.set_rule_ids(&HashMap::from([("ID", 70), ("WORD", 8)])).unwrap();
    assert_eq!((lacking, unused), (Some(HashSet::from(["WORD"])), Some(HashSet::from(["INT".to_owned()]))));
    assert_eq!(definition.lexer("a").unwrap().map(|it| it.unwrap().tok_id()).collect::<Vec<_>>(), [70]);
    assert_eq!(
        definition.lexer("1").unwrap().next(),
        Some(Err(LexError { start: 0, line: 1, column: 1, state: None }))
    );
    let document = Document::new(&definition, "a").unwrap();
    assert_eq!(definition.set_rule_ids(&HashMap::new()), Err(Error::Shared));
    drop(document);
    assert_eq!(definition.set_rule_ids(&HashMap::from([("ID", 1), ("INT", 0)])), Ok((None, None)));
    assert_eq!(definition.name_of(0).as_deref(), Some("INT"));
}

fn refused(rules: &str) -> RulesError {
    match rules.parse::<Definition>() {
        Err(Error::Rules(error)) => error,
        other => panic!("{rules:?}: {other:?}"),
    }
}

#[test]
fn a_refused_rule_text_has_faults() {
    let error = refused("%x A A\n%%\na+b 'A'\nb 'A'\nc( 'C'\n");
    let faults = error.faults();
    assert_eq!(faults.len(), 3);
    assert_eq!(faults[0].message, "Start state already exists");
    assert_eq!(faults[0].spans.iter().map(|it| it.span.clone()).collect::<Vec<_>>(), [3..4, 5..6]);
    assert_eq!(faults[0].to_string(), "1:4: Start state already exists, again at 1:6");
    assert_eq!(error.to_string().lines().count(), 3);
    assert_eq!(Error::from(error.clone()).to_string(), error.to_string());
}

#[test]
fn faults_have_kinds() {
    use FaultKind::*;
    for (rules, kinds) in [
        ("", vec![PrematureEnd]),
        ("%%\n%%\nmore", vec![RoutinesNotSupported]),
        ("word\n%%\n", vec![UnknownDeclaration]),
        ("%%\na\n", vec![MissingSpace]),
        ("%%\nb 'B\n", vec![InvalidName]),
        ("%%\n<B>b 'B'\n", vec![UnknownStartState]),
        ("%x A A\n%%\n<c 'D'\n", vec![DuplicateStartState, InvalidStartState]),
        ("%s 1\n%%\n", vec![InvalidStartStateName]),
        ("%%\na 'A'\nb 'A'\n", vec![DuplicateName]),
        ("%%\n code\n( 'A'\n", vec![VerbatimNotSupported, RegexError]),
    ] {
        let error = refused(rules);
        assert_eq!(error.faults().iter().map(|it| it.kind).collect::<Vec<_>>(), kinds, "{rules:?}");
    }
}

#[test]
fn reports_of_faults() {
    for (rules, report) in [
        ("%%\na) 'A'\n", "tokens.l:2:1: Invalid regular expression: unopened group\n2 | a) 'A'\n  | ^\n"),
        ("%x INITIAL\n%%\n", "tokens.l:1:4: Start state already exists\n1 | %x INITIAL\n  |    ^^^^^^^\n"),
    ] {
        assert_eq!(refused(rules).report("tokens.l").unwrap(), report);
    }
    // a report that needs more than the first room, and one of an error that went to another thread
    let error = refused(&("%%\n".to_owned() + &" code\n".repeat(1_000)));
    let report = error.report("é.l").unwrap();
    let other = error.clone();
    assert_eq!((report.lines().count(), report.contains("é.l:1001:1: ")), (3_000, true));
    assert_eq!(thread::spawn(move || other.report("é.l").unwrap()).join().unwrap(), report);
}

#[test]
fn reports_of_where_lexing_stops() {
    let definition = words();
    let report = "é:1:6: unexpected character '?'\n1 | ab 1 ?\n  |      ^\n";
    for (text, report) in [("ab 1", None), ("ab 1 ?", Some(report)), ("", None)] {
        assert_eq!(definition.stop_report(text, "é").unwrap().as_deref(), report, "{text:?}");
    }
    // one that needs more than the first room
    let file = "é".repeat(5_000);
    assert!(definition.stop_report("?", &file).unwrap().unwrap().starts_with(&file));
}

#[test]
fn flags_change_what_matches() {
    let flags = LexFlags { case_insensitive: Some(true), ..LexFlags::default() };
    let definition = Definition::new_with_options(WORDS, &flags).unwrap();
    assert_eq!(shown(&definition, definition.lexer("ABC").unwrap()), pairs(&[("ID", "ABC")]));
}

#[test]
fn a_budget_changes_no_answer() {
    let flags = LexFlags { budget: Some(Budget { rows: 0, work: 0 }), ..LexFlags::default() };
    let definition = Definition::new_with_options(WORDS, &flags).unwrap();
    assert_eq!(shown(&definition, definition.lexer("ab 1").unwrap()), pairs(&[("ID", "ab"), ("INT", "1")]));
}

#[test]
fn names_of_rules_and_start_states() {
    let definition: Definition = "%x STRING\n%%\na 'A'\nb ;\n".parse().unwrap();
    assert_eq!((definition.rule_count(), definition.state_count()), (2, 2));
    assert_eq!(
        (definition.rule_name(0).as_deref(), definition.rule_name(1), definition.rule_name(2)),
        (Some("A"), None, None)
    );
    assert_eq!((definition.state_name(1).as_deref(), definition.state_name(2)), (Some("STRING"), None));
    assert_eq!((definition.name_of(0).as_deref(), definition.name_of(1)), (Some("A"), None));
    // names that need more than the first room
    let name = "N".repeat(1_000);
    let definition: Definition = format!("%x {name}\n%%\na '{name}'\n").parse().unwrap();
    let names = [definition.rule_name(0), definition.name_of(0), definition.state_name(1)];
    assert_eq!(names, [(); 3].map(|()| Some(name.clone())));
}

#[test]
fn pieces_are_the_whole_text() {
    let (pieces, stop) = words().pieces("ab 1?").unwrap();
    assert_eq!(pieces.iter().map(|it| it.rule).collect::<Vec<_>>(), [1, 2, 0]);
    assert_eq!(pieces.last().unwrap().span.end, 4);
    assert_eq!(stop.unwrap().start, 4);
}

#[test]
fn where_a_text_enters_a_start_state() {
    // comments that nest; of one, `*` and `/` alone have no rule
    let rules = "%x C\n%%\n[a-z]+ 'ID'\n[ ]+ ;\n<INITIAL,C>/\\* <+C>;\n<C>\\*/ <-C>;\n<C>[^*/]+ ;\n";
    let definition: Definition = rules.parse().unwrap();
    let at = |span| Some(Entered { span, state: 1 });
    for (text, entered) in [
        ("a /* b /* c */ d", at(2..4)),
        ("a /* b /* c", at(7..9)),
        ("a /* b * c", at(2..4)),
        ("a /* b */ c", None),
        ("", None),
        ("a ? /*", None),
    ] {
        assert_eq!(definition.entered_by(text).unwrap(), entered, "{text:?}");
        assert_eq!(Document::new(&definition, text).unwrap().entered_by(), entered, "{text:?}");
    }
    let mut document = Document::new(&definition, "a /* b /* c */ d").unwrap();
    document.edit(12..14, "").unwrap();
    assert_eq!(document.entered_by(), at(7..9));
    document.edit(7..9, "*/").unwrap();
    assert_eq!(document.entered_by(), None);
}

#[test]
fn places_of_a_text() {
    let told = lrlex::places("é\nb c", &[0, 2, 5, 3, 1, usize::MAX]).unwrap();
    assert_eq!(told, [(1, 1), (1, 2), (2, 3), (2, 1), (1, 1), (2, 4)]);
    assert_eq!((lrlex::places("", &[]).unwrap(), lrlex::places("", &[3]).unwrap()), (vec![], vec![(1, 1)]));
}

#[test]
fn a_document_through_edits() {
    let definition = words();
    let mut document = Document::new(&definition, "abc 123").unwrap();
    document.edit(3..4, "").unwrap();
    assert_eq!(document.text(), "abc123");
    assert_eq!(shown(&definition, document.lexer().unwrap()), pairs(&[("ID", "abc"), ("INT", "123")]));
    assert_eq!(document.edit(4..99, ""), Err(Error::DoesNotFit));
    assert_eq!(document.edit(Range { start: 2, end: 1 }, ""), Err(Error::DoesNotFit));
    document.edit(6..6, " x").unwrap();
    assert_eq!((document.place(7), document.position(7)), ((1, 8), (0, 7)));
    assert_eq!(document.text(), "abc123 x");
    drop(definition);
    assert_eq!(document.lexer().unwrap().count(), 3);
}

#[test]
fn pieces_of_a_part_of_a_document() {
    let stop = LexError { start: 5, line: 2, column: 2, state: Some(0) };
    let backwards = Range { start: 4, end: 1 };
    for (text, range, wanted, stop) in [
        ("abc123 x", 4..7, vec![(3, 6), (6, 7)], None),
        ("abc123 x", 0..99, vec![(0, 3), (3, 6), (6, 7), (7, 8)], None),
        ("abc123 x", backwards, vec![], None),
        ("", 0..9, vec![], None),
        // where lexing stops after the range, in it, and before it
        ("ab \n1?c", 0..2, vec![(0, 2)], Some(stop)),
        ("ab \n1?c", 4..6, vec![(4, 5)], Some(stop)),
        ("ab \n1?c", 6..7, vec![], Some(stop)),
    ] {
        let rules = "%%\n[0-9]+ 'INT'\n[a-z]+ 'ID'\n[ \\n] ;\n";
        let document = Document::new(&rules.parse().unwrap(), text).unwrap();
        let (pieces, stopped) = document.pieces_in(range.clone()).unwrap();
        let spans: Vec<_> = pieces.into_iter().map(|it| (it.span.start, it.span.end)).collect();
        assert_eq!((spans, stopped), (wanted, stop), "{text:?} {range:?}");
        assert_eq!(document.lexer().unwrap().last().and_then(Result::err), stop, "{text:?}");
    }
}

#[test]
fn bytes_of_positions() {
    use PositionEncoding::{Utf8, Utf16};
    let document = Document::new(&words(), "a\u{1f600}b\n\u{e9}c").unwrap();
    assert_eq!((document.position_in(5, Utf8), document.position_in(5, Utf16)), ((0, 5), (0, 3)));
    for (position, encoding, byte) in [
        ((0, 3), Utf16, 5),
        ((0, 5), Utf8, 5),
        // between a pair of surrogates, and inside a character
        ((0, 2), Utf16, 1),
        ((0, 3), Utf8, 1),
        // past a line's end, and past the last line
        ((0, 99), Utf16, 6),
        ((1, usize::MAX), Utf8, 10),
        ((2, 0), Utf16, 10),
    ] {
        assert_eq!(document.offset_at(position, encoding), byte, "{position:?} {encoding:?}");
    }
    assert_eq!(Document::new(&words(), "").unwrap().offset_at((0, 0), Utf16), 0);
}

#[test]
fn a_scanner_gives_tiles() {
    let definition = words();
    let mut scanner = definition.scanner("ab 1?").unwrap();
    drop(definition);
    let tiles: Vec<_> = scanner.by_ref().take(3).map(Result::unwrap).collect();
    assert_eq!(
        tiles.iter().map(|it| (it.rule(), it.tok_id(), it.text())).collect::<Vec<_>>(),
        [(1, Some(1), "ab"), (2, None, " "), (0, Some(0), "1")]
    );
    assert_eq!(tiles[2].span(), 3..4);
    let stop = LexError { start: 4, line: 1, column: 5, state: Some(0) };
    assert_eq!((scanner.next(), scanner.next(), scanner.next()), (Some(Err(Error::Lex(stop))), None, None));
    assert_eq!(words().scanner("").unwrap().next(), None);
}

#[test]
fn a_scanner_gives_what_a_lexer_gives() {
    let definition = words();
    let text = "ab 12 ".repeat(10_000);
    let scanned =
        definition.scanner(&text).unwrap().map(Result::unwrap).filter_map(|it| Some((it.tok_id()?, it.span())));
    let lexed = definition.lexer(&text).unwrap().map(|it| it.map(|it| (it.tok_id(), it.span())).unwrap());
    assert!(scanned.eq(lexed));
}

#[test]
fn a_scanner_is_an_owner() {
    let mut definition = words();
    let scanner = definition.scanner("a").unwrap();
    assert_eq!(definition.set_rule_ids(&HashMap::new()), Err(Error::Shared));
    drop(scanner);
    assert!(definition.set_rule_ids(&HashMap::new()).is_ok());
    let stop = LexError { start: 0, line: 1, column: 1, state: None };
    assert_eq!(definition.scanner("a").unwrap().next(), Some(Err(Error::Lex(stop))));
}

#[test]
fn what_debugging_shows() {
    let definition = words();
    assert_eq!(format!("{definition:?}"), "Definition { rules: 3, states: 1, .. }");
    assert_eq!(format!("{:?}", definition.lexer("ab 1").unwrap()), "Lexer { left: 2, error: None, .. }");
    let scanner = definition.scanner("ab 1").unwrap();
    assert_eq!(format!("{scanner:?}"), "Scanner { text: \"ab 1\", is_over: false, .. }");
}

#[test]
fn lack_of_memory_is_an_error() {
    const LACK: Result<(), Error> = Err(Error::OutOfMemory);
    let definition = words();
    let text = "ab 1 ".repeat(20_000);
    let mut document = Document::new(&definition, &text).unwrap();
    let refused = refused(&("%%\n".to_owned() + &" code\n".repeat(5_000)));
    let stops = text.clone() + "?";
    let warned = "%%\n".to_owned() + &"| ;\n".repeat(1_000);
    assert_eq!(starved(|| definition.lexer(&text).map(drop)), LACK);
    assert_eq!(starved(|| definition.pieces(&text).map(drop)), LACK);
    assert_eq!(starved(|| definition.stop_report(&stops, &text).map(drop)), LACK);
    assert_eq!(starved(|| refused.report("").map(drop)), LACK);
    assert_eq!(starved(|| lrlex::check(&warned, &LexFlags::default()).map(drop)), LACK);
    assert_eq!(starved(|| lrlex::check_report(&warned, "", &LexFlags::default()).map(drop)), LACK);
    assert_eq!(starved(|| lrlex::places("", &[0; 5_000]).map(drop)), LACK);
    assert_eq!(starved(|| Document::new(&definition, &text).map(drop)), LACK);
    assert_eq!(starved(|| document.lexer().map(drop)), LACK);
    assert_eq!(starved(|| document.pieces_in(0..text.len()).map(drop)), LACK);
    assert_eq!(starved(|| document.edit(0..0, &text)), LACK);
    // the document is as it was, and all goes well with memory
    assert_eq!(document.text(), text);
    assert_eq!(document.lexer().unwrap().len(), definition.lexer(&text).unwrap().len());
    assert_eq!(document.edit(0..0, &text), Ok(()));
    assert_eq!(document.lexer().unwrap().len(), 80_000);
}

/// Ids and places of all that a definition finds in a text: by a lexer, by a scanner, and in a document through edits.
fn found_in(definition: &Definition, text: &str) -> [Vec<(u32, Range<usize>)>; 3] {
    let lexed = definition.lexer(text).unwrap().map(Result::unwrap).map(|it| (it.tok_id(), it.span()));
    let scanned =
        definition.scanner(text).unwrap().map(Result::unwrap).filter_map(|it| Some((it.tok_id()?, it.span())));
    let mut document = Document::new(definition, text).unwrap();
    for at in (0..text.len()).step_by(text.len() / 20) {
        document.edit(at..at + 1, "x9 ").unwrap();
    }
    let edited = document.lexer().unwrap().map(Result::unwrap).map(|it| (it.tok_id(), it.span()));
    [lexed.collect(), scanned.collect(), edited.collect()]
}

#[test]
fn threads_find_what_one_finds() {
    let mut definition = words();
    let text = "ab 12 c3 ".repeat(5_000);
    let wanted = found_in(&definition, &text);
    assert_eq!((wanted[0].len(), wanted[0] == wanted[1]), (20_000, true));
    thread::scope(|threads| {
        for _ in 0..8 {
            let own = definition.try_clone().unwrap();
            threads.spawn(|| {
                let own = own;
                for _ in 0..3 {
                    assert!(found_in(&own.try_clone().unwrap(), &text) == wanted);
                }
                // many owners come and go at the same time
                for _ in 0..10_000 {
                    drop(own.try_clone().unwrap());
                }
            });
        }
        assert!(found_in(&definition, &text) == wanted);
        assert_eq!(definition.try_clone().unwrap().set_rule_ids(&HashMap::new()), Err(Error::Shared));
    });
    assert!(definition.set_rule_ids(&HashMap::new()).is_ok(), "all other owners are gone");
}

#[test]
fn a_document_and_a_scanner_go_to_another_thread() {
    let definition = words();
    let (mut document, mut scanner) = (Document::new(&definition, "ab 1").unwrap(), definition.scanner("c 2").unwrap());
    assert_eq!(scanner.next().unwrap().unwrap().text(), "c");
    let document = thread::spawn(move || {
        document.edit(0..1, "2").unwrap();
        assert_eq!(scanner.map(|it| it.unwrap().text()).collect::<Vec<_>>(), [" ", "2"]);
        document
    });
    let document = document.join().unwrap();
    assert_eq!(shown(&definition, document.lexer().unwrap()), pairs(&[("INT", "2"), ("ID", "b"), ("INT", "1")]));
}

/// All types may go to another thread, and errors into those that other crates make of them.
const _: () = {
    const fn goes<T: Send + Unpin>() {}
    const fn is_shared<T: Sync>() {}
    const fn is_error<T: error::Error + Clone + Eq + Send + Sync + Unpin + 'static>() {}
    goes::<(Definition, Document, Scanner<'_>, Lexer<'_>, Lexeme<'_>, Tile<'_>, Piece, Entered)>();
    goes::<(Fault, FaultKind, FaultSpan, LexFlags, Budget, PositionEncoding)>();
    goes::<(Finding, Warning, WarningKind)>();
    is_shared::<(Mutex<Definition>, Mutex<Document>, Mutex<Scanner<'_>>)>();
    is_shared::<(Lexer<'_>, Lexeme<'_>, Tile<'_>, Piece, Entered)>();
    is_shared::<(Fault, FaultKind, FaultSpan, LexFlags, Budget, PositionEncoding)>();
    is_shared::<(Finding, Warning, WarningKind)>();
    is_error::<RulesError>();
    is_error::<LexError>();
    is_error::<Error>();
};

/// No two threads use one handle at a time: of a type that is `Sync` there are two of these constants, and naming one doesn't compile.
const _: () = {
    trait IsNotSync<Which> {
        const HOLDS: () = ();
    }
    impl<T> IsNotSync<u8> for T {}
    impl<T: Sync> IsNotSync<u16> for T {}
    let _: [(); 3] = [Definition::HOLDS, Document::HOLDS, Scanner::HOLDS];
};

//! Lexers from rule files (`.l`), by a library whose every call is proved.
//!
//! ```
//! use lrlex::Definition;
//!
//! let definition: Definition = "%%\n[0-9]+ 'INT'\n[a-z]+ 'ID'\n[ ] ;".parse()?;
//! for lexeme in definition.lexer("abc 123")? {
//!     let lexeme = lexeme?;
//!     println!("{} {}", definition.name_of(lexeme.tok_id()).unwrap_or_default(), lexeme.text());
//! }
//! # Ok::<(), lrlex::Error>(())
//! ```
//!
//! A [`Definition`] holds the rules of a rule file, a [`Lexer`] gives the lexemes of a text, and a [`Document`] is a text that is
//! edited. A [`Scanner`] gives the tiles of a text one after the other. The longest match wins; on a tie, the earliest rule. Spans are
//! in bytes.
//!
//! Two kinds of errors have reports with the line and carets, as compilers show them: [`RulesError::report`] for rule files, and
//! [`Definition::stop_report`] for texts. [`check`] finds all faults of a rule file, or warnings of what is legal there and hardly meant;
//! [`check_report`] shows them.
//!
//! A definition, a document and a scanner may go to another thread, but two threads can't use one at the same time: they are `Send`,
//! not `Sync`. [`Definition::try_clone`] gives each thread a definition of its own, without a copy of the rules.

#![warn(missing_docs, missing_debug_implementations)]

mod checking;
mod ffi;

pub use checking::{Finding, Warning, WarningKind, check, check_report};

use std::cell::{Cell, UnsafeCell};
use std::collections::{HashMap, HashSet, TryReserveError};
use std::error;
use std::ffi::c_int;
use std::fmt;
use std::iter::FusedIterator;
use std::mem;
use std::ops::Range;
use std::ptr::NonNull;
use std::str::FromStr;
use std::sync::{Arc, Mutex, PoisonError};

/// The flags and limits of a rule file. `None` is the default that the rule file's format gives.
///
/// ```
/// use lrlex::{Definition, LexFlags};
///
/// let flags = LexFlags { case_insensitive: Some(true), ..LexFlags::default() };
/// let definition = Definition::new_with_options("%%\n[a-z]+ 'ID'\n[ ] ;", &flags)?;
/// assert_eq!(definition.lexer("ab CD")?.count(), 2);
/// # Ok::<(), lrlex::Error>(())
/// ```
#[derive(Clone, Debug, Default, PartialEq, Eq)]
#[allow(missing_docs, reason = "the names are those of the program's options")]
pub struct LexFlags {
    pub dot_matches_new_line: Option<bool>,
    pub multi_line: Option<bool>,
    pub octal: Option<bool>,
    pub posix_escapes: Option<bool>,
    pub allow_wholeline_comments: Option<bool>,
    pub case_insensitive: Option<bool>,
    pub swap_greed: Option<bool>,
    pub ignore_whitespace: Option<bool>,
    pub unicode: Option<bool>,
    /// About how many bytes a compiled pattern may take.
    pub size_limit: Option<usize>,
    /// How deep a pattern may nest.
    pub nest_limit: Option<u32>,
    /// How much may be spent on tables. It changes how fast texts are lexed, and no answer.
    pub budget: Option<Budget>,
}

/// How much a definition may spend on the tables that it lexes by.
#[derive(Clone, Copy, Debug, PartialEq, Eq)]
pub struct Budget {
    /// The most rows, of about 512 bytes each.
    pub rows: usize,
    /// The most work: 1,000 for each row, and more.
    pub work: usize,
}

impl LexFlags {
    /// The C library's options. A limit of 0 would be read as the default, so it is 1.
    fn options(&self) -> ffi::Options {
        let flags = [
            self.dot_matches_new_line,
            self.multi_line,
            self.octal,
            self.posix_escapes,
            self.allow_wholeline_comments,
            self.case_insensitive,
            self.swap_greed,
            self.ignore_whitespace,
            self.unicode,
        ];
        let mut options = ffi::Options {
            size_limit: self.size_limit.map_or(0, |limit| limit.max(1)),
            nest_limit: self.nest_limit.map_or(0, |limit| limit.max(1)),
            table_rows: self.budget.map_or(0, |it| it.rows),
            table_work: self.budget.map_or(0, |it| it.work),
            limit_tables: self.budget.is_some(),
            ..ffi::Options::default()
        };
        for (bit, flag) in flags.into_iter().enumerate() {
            options.set |= u32::from(flag.is_some()) << bit;
            options.on |= u32::from(flag == Some(true)) << bit;
        }
        options
    }
}

/// A place of a rule text: its bytes, and line and column of its start, from 1. The column counts characters.
#[derive(Clone, Debug, PartialEq, Eq)]
#[allow(missing_docs, reason = "said above")]
pub struct FaultSpan {
    pub span: Range<usize>,
    pub line: usize,
    pub column: usize,
}

/// The kinds of faults, as `lrlex.h` names them.
#[derive(Clone, Copy, Debug, PartialEq, Eq, Hash)]
#[non_exhaustive]
pub enum FaultKind {
    /// The text ends before a line `%%`.
    PrematureEnd,
    /// There is text after the second `%%`.
    RoutinesNotSupported,
    /// A line before `%%` declares no start states.
    UnknownDeclaration,
    /// No space or tab separates a rule's pattern from its name.
    MissingSpace,
    /// A rule's name is neither `;` nor in quotes.
    InvalidName,
    /// A rule names a start state that isn't declared.
    UnknownStartState,
    /// A start state is declared again.
    DuplicateStartState,
    /// A `<` has no `>`.
    InvalidStartState,
    /// A start state's name isn't a letter followed by letters, digits, `_` and `.`.
    InvalidStartStateName,
    /// A rule has the name of an earlier rule.
    DuplicateName,
    /// A pattern isn't a regular expression, or is too large.
    RegexError,
    /// A line between the rules begins with white space.
    VerbatimNotSupported,
    /// There are more rules than ids.
    TooManyRules,
    /// A kind that only a later `lrlex.h` names, by its number there.
    Other(u32),
}

impl FaultKind {
    /// The kinds by their numbers.
    const ALL: [FaultKind; 13] = [
        FaultKind::PrematureEnd,
        FaultKind::RoutinesNotSupported,
        FaultKind::UnknownDeclaration,
        FaultKind::MissingSpace,
        FaultKind::InvalidName,
        FaultKind::UnknownStartState,
        FaultKind::DuplicateStartState,
        FaultKind::InvalidStartState,
        FaultKind::InvalidStartStateName,
        FaultKind::DuplicateName,
        FaultKind::RegexError,
        FaultKind::VerbatimNotSupported,
        FaultKind::TooManyRules,
    ];

    fn of(number: u32) -> FaultKind {
        Self::ALL.get(number as usize).copied().unwrap_or(FaultKind::Other(number))
    }

    /// The name of the kind, such as `DuplicateName`, as the C library has it. `None` if it has no such kind.
    #[must_use]
    pub fn name(self) -> Option<String> {
        let number = match self {
            FaultKind::Other(number) => number,
            known => number_in(&Self::ALL, known),
        };
        // SAFETY: there is room for `room` bytes.
        name_by(|out, room, len| unsafe { ffi::lrlex_fault_name(number, out, room, len) })
    }
}

/// A fault of a rule text.
#[derive(Clone, Debug, PartialEq, Eq)]
pub struct Fault {
    /// What kind of fault it is.
    pub kind: FaultKind,
    /// What is wrong, in English.
    pub message: String,
    /// Where it is. There is more than one span if something is declared twice: the first, and where it is declared again.
    pub spans: Vec<FaultSpan>,
}

impl fmt::Display for Fault {
    /// `LINE:COLUMN: MESSAGE`, and `, again at LINE:COLUMN` with all other places.
    fn fmt(&self, f: &mut fmt::Formatter<'_>) -> fmt::Result {
        if let Some(first) = self.spans.first() {
            write!(f, "{}:{}: ", first.line, first.column)?;
        }
        f.write_str(&self.message)?;
        for (at, it) in self.spans.iter().skip(1).enumerate() {
            let comma = if at == 0 { ", again at" } else { "," };
            write!(f, "{comma} {}:{}", it.line, it.column)?;
        }
        Ok(())
    }
}

/// The faults of a rule text that is refused, up to the first that is neither a duplicate nor verbatim code. It keeps a copy of the
/// text, for reports.
///
/// ```
/// use lrlex::{Definition, Error, FaultKind};
///
/// let Err(Error::Rules(error)) = "%%\n[0-9]+ 'INT'\n[0-9 'DIGIT'".parse::<Definition>() else { panic!() };
/// assert_eq!(error.faults()[0].kind, FaultKind::RegexError);
/// let report = error.report("words.l")?;
/// assert!(report.starts_with("words.l:3:1: Invalid regular expression"));
/// assert!(report.ends_with("\n3 | [0-9 'DIGIT'\n  | ^\n"));
/// # Ok::<(), Error>(())
/// ```
#[derive(Clone)]
pub struct RulesError {
    faults: Vec<Fault>,
    held: Arc<Mutex<Held>>,
}

impl RulesError {
    fn new(held: Held) -> Result<Self, Error> {
        Ok(RulesError { faults: faults_in(&held, ffi::lrlex_fault_text)?, held: Arc::new(Mutex::new(held)) })
    }

    /// The faults. There is at least one.
    #[must_use]
    pub fn faults(&self) -> &[Fault] {
        &self.faults
    }

    /// A report of its faults for people. Of each it has `FILE:LINE:COLUMN`, the message, the line, and carets under the place. `file`
    /// is the name to show.
    ///
    /// # Errors
    ///
    /// [`Error::OutOfMemory`].
    pub fn report(&self, file: &str) -> Result<String, Error> {
        let held = self.held.lock().unwrap_or_else(PoisonError::into_inner);
        let text = text_by(REPORT, |out, room, len| {
            // SAFETY: the handle has faults, pointer and length are a `&str`'s, and there is room for `room` bytes.
            unsafe { ffi::lrlex_fault_report(held.get(), file.as_ptr(), file.len(), out, room, len) }
        })?;
        Ok(text.unwrap_or_default())
    }
}

impl fmt::Debug for RulesError {
    fn fmt(&self, f: &mut fmt::Formatter<'_>) -> fmt::Result {
        f.debug_struct("RulesError").field("faults", &self.faults).finish_non_exhaustive()
    }
}

impl PartialEq for RulesError {
    /// Whether the faults are the same, with their places.
    fn eq(&self, other: &Self) -> bool {
        self.faults == other.faults
    }
}

impl Eq for RulesError {}

impl fmt::Display for RulesError {
    /// A line for each fault.
    fn fmt(&self, f: &mut fmt::Formatter<'_>) -> fmt::Result {
        for (at, fault) in self.faults.iter().enumerate() {
            write!(f, "{}{fault}", if at == 0 { "" } else { "\n" })?;
        }
        Ok(())
    }
}

impl error::Error for RulesError {}

/// Where lexing stopped before the end of the text.
#[derive(Clone, Copy, Debug, PartialEq, Eq)]
pub struct LexError {
    /// The byte at which no lexeme begins.
    pub start: usize,
    /// The line of that byte, from 1.
    pub line: usize,
    /// Its column, in characters from 1.
    pub column: usize,
    /// The id of the start state in which no rule matches there. `None` if a rule matches that gives no lexeme.
    pub state: Option<usize>,
}

impl fmt::Display for LexError {
    fn fmt(&self, f: &mut fmt::Formatter<'_>) -> fmt::Result {
        write!(f, "{}:{}: no lexeme begins here", self.line, self.column)
    }
}

impl error::Error for LexError {}

/// Why a call of this crate failed.
#[derive(Clone, Debug, PartialEq, Eq)]
#[non_exhaustive]
pub enum Error {
    /// The rule text is refused, for its faults.
    Rules(RulesError),
    /// Lexing stopped before the end of the text.
    Lex(LexError),
    /// The ends of an edit are past the end of the text, inside a character, or the wrong way round.
    DoesNotFit,
    /// The rules have other owners, so they can't be changed: clones of the definition, documents or scanners.
    Shared,
    /// Memory ran out.
    OutOfMemory,
}

impl fmt::Display for Error {
    fn fmt(&self, f: &mut fmt::Formatter<'_>) -> fmt::Result {
        match self {
            Error::Rules(error) => error.fmt(f),
            Error::Lex(error) => error.fmt(f),
            Error::DoesNotFit => f.write_str("The edit doesn't fit the text"),
            Error::Shared => f.write_str("The definition has other owners"),
            Error::OutOfMemory => f.write_str("Out of memory"),
        }
    }
}

impl error::Error for Error {}

impl From<RulesError> for Error {
    fn from(error: RulesError) -> Self {
        Error::Rules(error)
    }
}

impl From<LexError> for Error {
    fn from(error: LexError) -> Self {
        Error::Lex(error)
    }
}

impl From<TryReserveError> for Error {
    fn from(_: TryReserveError) -> Self {
        Error::OutOfMemory
    }
}

/// The result of a call that has no other status than these.
fn checked(status: c_int) -> Result<(), Error> {
    match status {
        ffi::OK => Ok(()),
        ffi::NOMEM => Err(Error::OutOfMemory),
        ffi::DOES_NOT_FIT => Err(Error::DoesNotFit),
        ffi::SHARED => Err(Error::Shared),
        other => unreachable!("lrlex answered status {other}"),
    }
}

/// Room for most names, and for most reports. Where it is too little the call is made again, and so is the report.
const NAME: usize = 64;
const REPORT: usize = 4096;

/// The text that a call writes into a buffer of that much room, or of as much as it asks for. `None` if there is none.
fn text_by(room: usize, call: impl Fn(*mut u8, usize, &mut usize) -> c_int) -> Result<Option<String>, Error> {
    let mut text = vec![0; room];
    loop {
        let mut len = 0;
        match call(text.as_mut_ptr(), text.len(), &mut len) {
            ffi::NONE => return Ok(None),
            status => checked(status)?,
        }
        let is_all = len <= text.len();
        text.try_reserve_exact(len.saturating_sub(text.len()))?;
        text.resize(len, 0);
        if is_all {
            return Ok(Some(String::from_utf8(text).expect("the library writes UTF-8")));
        }
    }
}

/// The name that a call writes, if there is one. These calls only copy: none answers that memory lacks.
fn name_by(call: impl Fn(*mut u8, usize, &mut usize) -> c_int) -> Option<String> {
    text_by(NAME, call).expect("a name is there to be copied")
}

/// The number of a kind: its place among all.
fn number_in<K: PartialEq>(kinds: &[K], kind: K) -> u32 {
    (0..).zip(kinds).find(|(_, it)| **it == kind).map_or(u32::MAX, |(number, _)| number)
}

/// Line and column of a byte of the text.
fn place(text: &str, byte: usize) -> Result<(usize, usize), Error> {
    let mut place = ffi::Place::default();
    // SAFETY: pointer and length are a `&str`'s; one byte is read and one place is written.
    checked(unsafe { ffi::lrlex_places(text.as_ptr(), text.len(), &raw const byte, 1, &raw mut place, 1) })?;
    Ok((place.line, place.column))
}

/// Line and column, both from 1, of the place before each of these bytes of a text, such as the starts of lexemes. A column counts
/// characters. Inside a character it is the place before that, and past the text's end the end.
///
/// Each call reads the whole text, so ask for many places at once: in ascending order they take no further pass.
///
/// ```
/// let text = "abc\n123";
/// let definition: lrlex::Definition = "%%\n[0-9]+ 'INT'\n[a-z]+ 'ID'\n[ \\n] ;".parse()?;
/// let starts = definition.lexer(text)?.map(|it| it.map(|it| it.span().start)).collect::<Result<Vec<_>, _>>()?;
/// assert_eq!(lrlex::places(text, &starts)?, [(1, 1), (2, 1)]);
/// # Ok::<(), lrlex::Error>(())
/// ```
///
/// # Errors
///
/// [`Error::OutOfMemory`].
pub fn places(text: &str, bytes: &[usize]) -> Result<Vec<(usize, usize)>, Error> {
    let (mut places, mut found) = (Vec::new(), Vec::new());
    places.try_reserve_exact(bytes.len())?;
    places.resize(bytes.len(), ffi::Place::default());
    found.try_reserve_exact(bytes.len())?;
    let count = bytes.len();
    // SAFETY: pointers and lengths are a `&str`'s and slices'.
    checked(unsafe { ffi::lrlex_places(text.as_ptr(), text.len(), bytes.as_ptr(), count, places.as_mut_ptr(), count) })?;
    found.extend(places.iter().map(|it| (it.line, it.column)));
    Ok(found)
}

/// What a call writes into a buffer of tokens or pieces. Where there are more than there is room for, the call is made twice.
fn filled<T>(
    mut rows: Vec<T>,
    mut room: usize,
    call: impl Fn(*mut T, usize, &mut ffi::Lexed) -> c_int,
) -> Result<(Vec<T>, ffi::Lexed), Error> {
    let mut lexed = ffi::Lexed::default();
    loop {
        rows.clear();
        rows.try_reserve_exact(room)?;
        checked(call(rows.as_mut_ptr(), room, &mut lexed))?;
        if lexed.count <= room {
            // SAFETY: there is room for `room` rows, and the call has written the first `count` of them.
            unsafe { rows.set_len(lexed.count) };
            return Ok((rows, lexed));
        }
        room = lexed.count;
    }
}

/// How many tokens or pieces 1,024 bytes have: the most that a text had, or 0 before the first.
#[derive(Clone, Debug, Default)]
struct Density(Cell<usize>);

impl Density {
    /// How much of the first text is lexed to see how many there may be.
    const SAMPLE: usize = 8192;

    fn see(&self, lexed: &ffi::Lexed) {
        self.0.set(self.0.get().max(lexed.count.saturating_mul(1024) / (lexed.end + 1) + 1));
    }

    /// What a call writes into a buffer of tokens or pieces of the text, for which it has room at once unless the text is denser by a
    /// quarter than each before it.
    fn filled<T>(
        &self,
        rows: Vec<T>,
        text: &str,
        call: impl Fn(&str, *mut T, usize, &mut ffi::Lexed) -> c_int,
    ) -> Result<(Vec<T>, ffi::Lexed), Error> {
        let mut room = text.len();
        if room > Self::SAMPLE {
            if self.0.get() == 0 {
                let end = (0..=Self::SAMPLE).rfind(|&it| text.is_char_boundary(it)).unwrap_or(0);
                let mut lexed = ffi::Lexed::default();
                checked(call(&text[..end], NonNull::dangling().as_ptr(), 0, &mut lexed))?;
                self.see(&lexed);
            }
            room = room.min((room / 1024 + 1).saturating_mul(self.0.get() * 5 / 4 + 1));
        }
        let (rows, lexed) = filled(rows, room, |out, room, lexed| call(text, out, room, lexed))?;
        self.see(&lexed);
        Ok((rows, lexed))
    }
}

/// A handle of the C library. A call takes out what it has and puts it back at its end, so it is used by one call at a time: it isn't
/// `Sync`, and no call calls back.
#[derive(Debug)]
struct Held(UnsafeCell<ffi::Handle>);

// SAFETY: a handle owns what it points to. That is memory of `malloc`, which any thread may free, and nothing in it is of one thread.
// Handles share definitions alone. Their owners are counted atomically, and a definition is only read while it has more than one: the
// call that changes it makes sure that there is no other. The library has no global state.
unsafe impl Send for Held {}

impl Held {
    fn empty() -> Held {
        Held(UnsafeCell::new(ffi::Handle::EMPTY))
    }

    fn get(&self) -> *mut ffi::Handle {
        self.0.get()
    }
}

impl Drop for Held {
    fn drop(&mut self) {
        // SAFETY: the handle is empty, or as a call left it, and no call uses it.
        unsafe { ffi::lrlex_free(self.get()) }
    }
}

/// Where and why lexing stopped, if it did. `place` gives line and column of a byte.
fn stop(
    lexed: &ffi::Lexed,
    place: impl FnOnce(usize) -> Result<(usize, usize), Error>,
) -> Result<Option<LexError>, Error> {
    if !lexed.stopped {
        return Ok(None);
    }
    let (line, column) = place(lexed.end)?;
    let state = lexed.unmatched.then_some(lexed.state);
    Ok(Some(LexError { start: lexed.end, line, column, state }))
}

/// Where a text enters the start state in which it ends.
#[derive(Clone, Debug, PartialEq, Eq, Hash)]
pub struct Entered {
    /// The bytes of the piece that enters it.
    pub span: Range<usize>,
    /// The number of the start state, from 0.
    pub state: usize,
}

/// What a call says of where a text enters the start state in which it ends.
fn entered_by(call: impl Fn(&mut ffi::Entered) -> c_int) -> Result<Option<Entered>, Error> {
    let mut it = ffi::Entered::default();
    match call(&mut it) {
        ffi::NONE => Ok(None),
        status => checked(status).map(|()| Some(Entered { span: it.start..it.end, state: it.state })),
    }
}

/// Names that no rule has, and names of rules without an id. `None` stands for an empty set.
pub type IdSets<'a> = (Option<HashSet<&'a str>>, Option<HashSet<String>>);

/// The rules of a rule file, ready to lex texts.
pub struct Definition {
    held: Held,
    tokens: Density,
    pieces: Density,
    spare: Spare,
}

impl fmt::Debug for Definition {
    fn fmt(&self, f: &mut fmt::Formatter<'_>) -> fmt::Result {
        let (rules, states) = (self.rule_count(), self.state_count());
        f.debug_struct("Definition").field("rules", &rules).field("states", &states).finish_non_exhaustive()
    }
}

/// A buffer that lexers of a definition have done with. The next lexer takes it, since new memory costs about as much as lexing.
#[derive(Clone, Default)]
struct Spare(Arc<Mutex<Vec<ffi::Token>>>);

impl Spare {
    /// Buffers for more tokens than this aren't kept.
    const MOST: usize = 1 << 21;

    fn take(&self) -> Vec<ffi::Token> {
        self.0.lock().map(|mut it| mem::take(&mut *it)).unwrap_or_default()
    }

    fn put(&self, rows: Vec<ffi::Token>) {
        if let Ok(mut it) = self.0.lock() {
            if it.capacity() < rows.capacity() && rows.capacity() <= Self::MOST {
                *it = rows;
            }
        }
    }
}

impl FromStr for Definition {
    type Err = Error;

    fn from_str(rules: &str) -> Result<Self, Error> {
        Definition::new_with_options(rules, &LexFlags::default())
    }
}

impl Definition {
    /// Reads a rule text with these flags.
    ///
    /// # Errors
    ///
    /// [`Error::Rules`] with the faults of the rule text, or [`Error::OutOfMemory`].
    pub fn new_with_options(rules: &str, flags: &LexFlags) -> Result<Self, Error> {
        let held = Held::empty();
        let options = flags.options();
        // SAFETY: pointer and length are a `&str`'s, and the handle is empty.
        match unsafe { ffi::lrlex_definition_new(held.get(), rules.as_ptr(), rules.len(), &raw const options) } {
            ffi::REFUSED => Err(Error::Rules(RulesError::new(held)?)),
            status => checked(status).map(|()| Definition {
                held,
                tokens: Density::default(),
                pieces: Density::default(),
                spare: Spare::default(),
            }),
        }
    }

    /// Another definition of the same rules, as for another thread. The rules aren't copied: they are freed with their last owner.
    ///
    /// There is no `Clone`, since memory may lack.
    ///
    /// ```
    /// # use lrlex::Definition;
    /// let definition: Definition = "%%\n[a-z]+ 'ID'\n[ ] ;".parse()?;
    /// let other = definition.try_clone()?;
    /// let counting = std::thread::spawn(move || other.lexer("ab c").map(Iterator::count));
    /// assert_eq!(definition.lexer("d")?.count(), 1);
    /// assert_eq!(counting.join().unwrap()?, 2);
    /// # Ok::<(), lrlex::Error>(())
    /// ```
    ///
    /// # Errors
    ///
    /// [`Error::OutOfMemory`].
    pub fn try_clone(&self) -> Result<Self, Error> {
        let held = Held::empty();
        // SAFETY: the handle is a definition's, and the new one is empty.
        checked(unsafe { ffi::lrlex_definition_share(self.held.get(), held.get()) })?;
        Ok(Definition { held, tokens: self.tokens.clone(), pieces: self.pieces.clone(), spare: Spare::default() })
    }

    /// Lexes the text.
    ///
    /// ```
    /// # let definition: lrlex::Definition = "%%\n[0-9]+ 'INT'\n[a-z]+ 'ID'\n[ ] ;".parse()?;
    /// let lexemes = definition.lexer("abc 123")?.collect::<Result<Vec<_>, _>>()?;
    /// assert_eq!((lexemes[1].text(), lexemes[1].span()), ("123", 4..7));
    /// let error = definition.lexer("abc ?")?.find_map(Result::err).unwrap();
    /// assert_eq!((error.start, error.line, error.column), (4, 1, 5));
    /// # Ok::<(), lrlex::Error>(())
    /// ```
    ///
    /// # Errors
    ///
    /// [`Error::OutOfMemory`]. A text that no rule matches isn't an error of this call but the last item of the lexer.
    pub fn lexer<'text>(&self, text: &'text str) -> Result<Lexer<'text>, Error> {
        let (tokens, lexed) = self.tokens.filled(self.spare.take(), text, |text, out, room, lexed| {
            // SAFETY: pointer and length are a `&str`'s, and there is room for `room` tokens.
            unsafe { ffi::lrlex_lex(self.held.get(), text.as_ptr(), text.len(), out, room, lexed) }
        })?;
        let error = stop(&lexed, |byte| place(text, byte))?;
        Ok(Lexer { text, tokens, next: 0, error, spare: self.spare.clone() })
    }

    /// The whole text as the rules cut it, also where a rule has no name, and where lexing stopped, if it did.
    ///
    /// ```
    /// # let definition: lrlex::Definition = "%%\n[0-9]+ 'INT'\n[a-z]+ 'ID'\n[ ] ;".parse()?;
    /// let (pieces, stop) = definition.pieces("ab 1")?;
    /// assert_eq!(pieces.iter().map(|it| it.span.len()).collect::<Vec<_>>(), [2, 1, 1]);
    /// assert!(definition.rule_name(pieces[1].rule).is_none() && stop.is_none());
    /// # Ok::<(), lrlex::Error>(())
    /// ```
    ///
    /// # Errors
    ///
    /// [`Error::OutOfMemory`].
    pub fn pieces(&self, text: &str) -> Result<(Vec<Piece>, Option<LexError>), Error> {
        let (pieces, lexed) = self.pieces.filled(Vec::new(), text, |text, out, room, lexed| {
            // SAFETY: pointer and length are a `&str`'s, and there is room for `room` pieces.
            unsafe { ffi::lrlex_pieces(self.held.get(), text.as_ptr(), text.len(), out, room, lexed) }
        })?;
        Ok((pieces.into_iter().map(Piece::from).collect(), stop(&lexed, |byte| place(text, byte))?))
    }

    /// A report for people of where lexing the text stops: `FILE:LINE:COLUMN`, the message, the line, and a caret. `file` is the name to
    /// show. `None` if lexing comes to the end.
    ///
    /// ```
    /// # let definition: lrlex::Definition = "%%\n[0-9]+ 'INT'\n[a-z]+ 'ID'\n[ ] ;".parse()?;
    /// let report = definition.stop_report("ab ?", "words.txt")?.unwrap();
    /// assert_eq!(report, "words.txt:1:4: unexpected character '?'\n1 | ab ?\n  |    ^\n");
    /// assert!(definition.stop_report("ab 1", "words.txt")?.is_none());
    /// # Ok::<(), lrlex::Error>(())
    /// ```
    ///
    /// # Errors
    ///
    /// [`Error::OutOfMemory`].
    pub fn stop_report(&self, text: &str, file: &str) -> Result<Option<String>, Error> {
        text_by(REPORT, |out, room, len| {
            let (name, size, text, bytes) = (file.as_ptr(), file.len(), text.as_ptr(), text.len());
            // SAFETY: pointers and lengths are those of `&str`s, and there is room for `room` bytes.
            unsafe { ffi::lrlex_stop_report(self.held.get(), name, size, text, bytes, out, room, len) }
        })
    }

    /// Where a text enters the start state in which it ends, such as the beginning of a comment that nothing closes. Where lexing
    /// stops, the text ends. `None` if the text begins in that state and no piece leaves it. Of a text that ends in `INITIAL` it is `Some`
    /// if the text left `INITIAL`.
    ///
    /// ```
    /// let definition: lrlex::Definition = "%x TEXT\n%%\n[a-z]+ 'ID'\n\" <+TEXT>;\n<TEXT>\" <-TEXT>;\n<TEXT>[^\"]+ 'TEXT'".parse()?;
    /// let entered = definition.entered_by("a\"b\"\"c")?.unwrap();
    /// assert_eq!((entered.span, definition.state_name(entered.state).as_deref()), (4..5, Some("TEXT")));
    /// assert!(definition.entered_by("a\"b\"")?.is_none());
    /// # Ok::<(), lrlex::Error>(())
    /// ```
    ///
    /// # Errors
    ///
    /// [`Error::OutOfMemory`].
    pub fn entered_by(&self, text: &str) -> Result<Option<Entered>, Error> {
        // SAFETY: pointer and length are a `&str`'s, and one struct is written.
        entered_by(|out| unsafe { ffi::lrlex_entered_by(self.held.get(), text.as_ptr(), text.len(), out) })
    }

    /// The name of the first rule that has a name and this id. `None` if there is no such rule.
    #[must_use]
    pub fn name_of(&self, tok_id: u32) -> Option<String> {
        // SAFETY: (here and below) there is room for `room` bytes.
        name_by(|out, room, len| unsafe { ffi::lrlex_name(self.held.get(), tok_id, out, room, len) })
    }

    /// How many rules there are.
    #[must_use]
    pub fn rule_count(&self) -> usize {
        // SAFETY: the handle is a definition's.
        unsafe { ffi::lrlex_rule_count(self.held.get()) }
    }

    /// The name of the rule of this number, from 0. `None` if it has none, or there are fewer rules.
    #[must_use]
    pub fn rule_name(&self, rule: usize) -> Option<String> {
        name_by(|out, room, len| unsafe { ffi::lrlex_rule_name(self.held.get(), rule, out, room, len) })
    }

    /// Gives each named rule the map's id for its name, or none. Unnamed rules keep theirs. Lexing stops where a rule matches that has
    /// a name and no id.
    ///
    /// The first set has the map's names that no rule has, the second the names of rules that the map lacks. `None` stands for an
    /// empty set.
    ///
    /// ```
    /// # let mut definition: lrlex::Definition = "%%\n[0-9]+ 'INT'\n[a-z]+ 'ID'\n[ ] ;".parse()?;
    /// let (unknown, unused) = definition.set_rule_ids(&[("ID", 70), ("INT", 71)].into())?;
    /// assert!(unknown.is_none() && unused.is_none());
    /// assert_eq!(definition.name_of(70).as_deref(), Some("ID"));
    /// # Ok::<(), lrlex::Error>(())
    /// ```
    ///
    /// # Errors
    ///
    /// [`Error::Shared`] while there is a clone, a document or a scanner of this definition, or [`Error::OutOfMemory`]. The definition
    /// is then as it was.
    pub fn set_rule_ids<'a>(&mut self, ids: &HashMap<&'a str, u32>) -> Result<IdSets<'a>, Error> {
        let given: Vec<_> =
            ids.iter().map(|(name, &id)| ffi::NamedId { name: name.as_ptr(), name_len: name.len(), id }).collect();
        let mut missing = vec![false; given.len()];
        // SAFETY: the entries are `&str`s, and there is room for as many `bool`s.
        checked(unsafe {
            ffi::lrlex_definition_set_rule_ids(
                self.held.get(),
                given.as_ptr(),
                given.len(),
                missing.as_mut_ptr(),
                missing.len(),
            )
        })?;
        let lacking: HashSet<_> = ids.keys().zip(missing).filter(|it| it.1).map(|it| *it.0).collect();
        let unused: HashSet<_> =
            (0..self.rule_count()).filter(|&it| !self.has_id(it)).filter_map(|it| self.rule_name(it)).collect();
        Ok(((!lacking.is_empty()).then_some(lacking), (!unused.is_empty()).then_some(unused)))
    }

    /// The tiles of a text, one after the other, from its front.
    ///
    /// ```
    /// # let definition: lrlex::Definition = "%%\n[0-9]+ 'INT'\n[a-z]+ 'ID'\n[ ] ;".parse()?;
    /// let mut scanner = definition.scanner("ab 1 c")?;
    /// let first = scanner.next().unwrap()?;
    /// assert_eq!((first.text(), first.tok_id()), ("ab", Some(1)));
    /// let blank = scanner.next().unwrap()?;
    /// assert_eq!((blank.text(), blank.tok_id()), (" ", None));
    /// # Ok::<(), lrlex::Error>(())
    /// ```
    ///
    /// # Errors
    ///
    /// [`Error::OutOfMemory`].
    pub fn scanner<'text>(&self, text: &'text str) -> Result<Scanner<'text>, Error> {
        let held = Held::empty();
        // SAFETY: pointer and length are a `&str`'s, and the new handle is empty.
        checked(unsafe { ffi::lrlex_scanner_new(self.held.get(), held.get(), text.as_ptr(), text.len()) })?;
        Ok(Scanner { held, text, tiles: Vec::new(), next: 0, is_over: false })
    }

    /// Whether the rule of this number has an id.
    fn has_id(&self, rule: usize) -> bool {
        let mut it = ffi::Rule::default();
        // SAFETY: one rule is written.
        let status = unsafe { ffi::lrlex_rule_at(self.held.get(), rule, &raw mut it) };
        status == ffi::OK && it.has_id
    }

    /// How many start states there are, with `INITIAL`.
    #[must_use]
    pub fn state_count(&self) -> usize {
        // SAFETY: the handle is a definition's.
        unsafe { ffi::lrlex_state_count(self.held.get()) }
    }

    /// The name of the start state of this number, from 0. `None` if there are fewer.
    #[must_use]
    pub fn state_name(&self, state: usize) -> Option<String> {
        name_by(|out, room, len| unsafe { ffi::lrlex_state_name(self.held.get(), state, out, room, len) })
    }
}

/// A call that tells what a fault is: `lrlex_fault_text`, or `lrlex_fault_message`.
type FaultCall = unsafe extern "C" fn(*mut ffi::Handle, usize, *mut u8, usize, *mut usize) -> c_int;

/// The faults that the handle of a refused rule text holds, each with what this call tells of it.
fn faults_in(held: &Held, call: FaultCall) -> Result<Vec<Fault>, Error> {
    // SAFETY: (here and below) the handle holds faults, and what is written is one struct, and as many bytes as there is room for.
    let count = unsafe { ffi::lrlex_fault_count(held.get()) };
    let mut faults = Vec::with_capacity(count);
    for at in 0..count {
        let mut fault = ffi::Fault::default();
        checked(unsafe { ffi::lrlex_fault_at(held.get(), at, &raw mut fault) })?;
        let mut spans = Vec::with_capacity(fault.spans);
        for number in 0..fault.spans {
            let mut it = ffi::FaultSpan::default();
            checked(unsafe { ffi::lrlex_fault_span_at(held.get(), at, number, &raw mut it) })?;
            spans.push(FaultSpan { span: it.start..it.end, line: it.line, column: it.column });
        }
        let message = text_by(NAME, |out, room, len| unsafe { call(held.get(), at, out, room, len) })?;
        faults.push(Fault { kind: FaultKind::of(fault.kind), message: message.unwrap_or_default(), spans });
    }
    Ok(faults)
}

/// A lexeme of a text.
#[derive(Clone, Copy, Debug, PartialEq, Eq, Hash)]
pub struct Lexeme<'text> {
    text: &'text str,
    start: usize,
    tok_id: u32,
}

impl<'text> Lexeme<'text> {
    /// The id of its rule.
    #[inline]
    #[must_use]
    pub fn tok_id(&self) -> u32 {
        self.tok_id
    }

    /// Its bytes in the text that was lexed.
    #[inline]
    #[must_use]
    pub fn span(&self) -> Range<usize> {
        self.start..self.start + self.text.len()
    }

    /// Its text.
    #[inline]
    #[must_use]
    pub fn text(&self) -> &'text str {
        self.text
    }
}

/// A piece of a text as the rules cut it.
#[derive(Clone, Debug, PartialEq, Eq, Hash)]
pub struct Piece {
    /// Its bytes.
    pub span: Range<usize>,
    /// The number of its rule, from 0.
    pub rule: usize,
}

impl From<ffi::Piece> for Piece {
    fn from(it: ffi::Piece) -> Self {
        Piece { span: it.start..it.start + it.len, rule: it.rule }
    }
}

/// The lexemes of a text, in order. If lexing stopped before the text's end, the last item is an error.
#[derive(Clone)]
pub struct Lexer<'text> {
    text: &'text str,
    tokens: Vec<ffi::Token>,
    next: usize,
    error: Option<LexError>,
    spare: Spare,
}

impl fmt::Debug for Lexer<'_> {
    fn fmt(&self, f: &mut fmt::Formatter<'_>) -> fmt::Result {
        f.debug_struct("Lexer").field("left", &self.len()).field("error", &self.error).finish_non_exhaustive()
    }
}

impl Drop for Lexer<'_> {
    fn drop(&mut self) {
        self.spare.put(mem::take(&mut self.tokens));
    }
}

impl<'text> Iterator for Lexer<'text> {
    type Item = Result<Lexeme<'text>, LexError>;

    #[inline]
    fn next(&mut self) -> Option<Self::Item> {
        match self.tokens.get(self.next) {
            Some(it) => {
                self.next += 1;
                // SAFETY: the library has lexed this very text, and proves that both ends of a lexeme are character boundaries of it.
                let text = unsafe { self.text.get_unchecked(it.start..it.start + it.len) };
                Some(Ok(Lexeme { text, start: it.start, tok_id: it.id }))
            }
            None => self.error.take().map(Err),
        }
    }

    #[inline]
    fn size_hint(&self) -> (usize, Option<usize>) {
        let left = self.tokens.len() - self.next + usize::from(self.error.is_some());
        (left, Some(left))
    }
}

impl ExactSizeIterator for Lexer<'_> {}

impl FusedIterator for Lexer<'_> {}

/// A text that is edited. An edit lexes again only what it changes. The definition may be dropped before it.
///
/// ```
/// use lrlex::{Definition, Document};
///
/// let definition: Definition = "%%\n[0-9]+ 'INT'\n[a-z]+ 'ID'\n[ ] ;".parse()?;
/// let mut document = Document::new(&definition, "abc 123")?;
/// document.edit(3..4, "")?;
/// assert_eq!(document.text(), "abc123");
/// assert_eq!(document.lexer()?.map(|it| it.map(|it| it.span())).collect::<Result<Vec<_>, _>>()?, [0..3, 3..6]);
/// # Ok::<(), lrlex::Error>(())
/// ```
#[derive(Debug)]
pub struct Document {
    held: Held,
    text: String,
}

impl Document {
    /// Lexes a text.
    ///
    /// # Errors
    ///
    /// [`Error::OutOfMemory`].
    pub fn new(definition: &Definition, text: &str) -> Result<Self, Error> {
        let (held, mut own) = (Held::empty(), String::new());
        own.try_reserve_exact(text.len())?;
        own.push_str(text);
        // SAFETY: pointer and length are a `&str`'s, and the new handle is empty.
        checked(unsafe { ffi::lrlex_document_new(definition.held.get(), held.get(), text.as_ptr(), text.len()) })?;
        Ok(Document { held, text: own })
    }

    /// Puts a text in the place of these bytes.
    ///
    /// # Errors
    ///
    /// [`Error::DoesNotFit`] if the range isn't one of the text's characters, or [`Error::OutOfMemory`]. The document is then as
    /// it was.
    pub fn edit(&mut self, range: Range<usize>, put: &str) -> Result<(), Error> {
        self.text.try_reserve(put.len())?;
        // SAFETY: pointer and length are a `&str`'s.
        checked(unsafe { ffi::lrlex_document_edit(self.held.get(), range.start, range.end, put.as_ptr(), put.len()) })?;
        self.text.replace_range(range, put);
        Ok(())
    }

    /// The text as it is now.
    #[must_use]
    pub fn text(&self) -> &str {
        &self.text
    }

    /// The lexemes of the text as it is now.
    ///
    /// # Errors
    ///
    /// [`Error::OutOfMemory`].
    pub fn lexer(&self) -> Result<Lexer<'_>, Error> {
        // A document is lexed, so the first call costs nothing: it says how many there are.
        let (tokens, lexed) = filled(Vec::new(), 0, |out, room, lexed| {
            // SAFETY: there is room for `room` tokens.
            unsafe { ffi::lrlex_document_tokens(self.held.get(), 0, out, room, lexed) }
        })?;
        let error = stop(&lexed, |byte| Ok(self.place(byte)))?;
        Ok(Lexer { text: &self.text, tokens, next: 0, error, spare: Spare::default() })
    }

    /// The pieces that have a byte in this range, such as those of the lines that an editor shows. Each is whole, so the first may
    /// begin before the range, and the last end after it. Any range will do. After them comes where lexing of the document stopped, if
    /// it did, in the range or not: there are no pieces from there on.
    ///
    /// # Errors
    ///
    /// [`Error::OutOfMemory`].
    pub fn pieces_in(&self, range: Range<usize>) -> Result<(Vec<Piece>, Option<LexError>), Error> {
        let (pieces, lexed) = filled(Vec::new(), range.len().min(self.text.len()), |out, room, lexed| {
            // SAFETY: there is room for `room` pieces.
            unsafe { ffi::lrlex_document_pieces_in(self.held.get(), range.start, range.end, out, room, lexed) }
        })?;
        let stop = stop(&lexed, |byte| Ok(self.place(byte)))?;
        Ok((pieces.into_iter().map(Piece::from).collect(), stop))
    }

    /// Where the text enters the start state in which it ends, as [`Definition::entered_by`] tells it.
    #[must_use]
    pub fn entered_by(&self) -> Option<Entered> {
        // SAFETY: one struct is written.
        entered_by(|out| unsafe { ffi::lrlex_document_entered_by(self.held.get(), out) })
            .expect("the call asks for no memory")
    }

    /// Line and column of a byte, from 1; the column counts characters. A byte inside a character has the character's place.
    #[must_use]
    pub fn place(&self, byte: usize) -> (usize, usize) {
        let mut place = ffi::Place::default();
        // SAFETY: one place is written.
        let status = unsafe { ffi::lrlex_document_place(self.held.get(), byte, &raw mut place) };
        debug_assert_eq!(status, ffi::OK);
        (place.line, place.column)
    }

    /// The place of a byte as the Language Server Protocol counts it: line and column from 0, in code units of UTF-16.
    #[must_use]
    pub fn position(&self, byte: usize) -> (usize, usize) {
        self.position_in(byte, PositionEncoding::Utf16)
    }

    /// Line and column of a byte, from 0, the column counted as the encoding says.
    #[must_use]
    pub fn position_in(&self, byte: usize, encoding: PositionEncoding) -> (usize, usize) {
        let mut place = ffi::Place::default();
        // SAFETY: one place is written.
        let status = unsafe { ffi::lrlex_document_position_in(self.held.get(), byte, encoding as u32, &raw mut place) };
        debug_assert_eq!(status, ffi::OK);
        (place.line, place.column)
    }

    /// The byte of a line and column, from 0, the column counted as the encoding says. Past a line's end it is the line's end, past the
    /// last line the text's end, and inside a character the place before that.
    ///
    /// ```
    /// # let definition: lrlex::Definition = "%%\n. 'ANY'".parse()?;
    /// use lrlex::{Document, PositionEncoding::{Utf8, Utf16}};
    ///
    /// let document = Document::new(&definition, "é\n😀x")?;
    /// assert_eq!((document.offset_at((1, 2), Utf16), document.offset_at((1, 4), Utf8)), (7, 7));
    /// assert_eq!((document.position(7), document.place(7)), ((1, 2), (2, 2)));
    /// # Ok::<(), lrlex::Error>(())
    /// ```
    #[must_use]
    pub fn offset_at(&self, position: (usize, usize), encoding: PositionEncoding) -> usize {
        let (mut byte, (line, column)) = (0, position);
        // SAFETY: one number is written.
        let status =
            unsafe { ffi::lrlex_document_offset_at(self.held.get(), line, column, encoding as u32, &raw mut byte) };
        debug_assert_eq!(status, ffi::OK);
        byte
    }
}

/// What the columns of a position count.
#[derive(Clone, Copy, Debug, PartialEq, Eq, Hash)]
pub enum PositionEncoding {
    /// Bytes.
    Utf8 = 0,
    /// Code units of UTF-16.
    Utf16 = 1,
}

/// A piece of a text as a [`Scanner`] gives it.
#[derive(Clone, Copy, Debug, PartialEq, Eq, Hash)]
pub struct Tile<'text> {
    text: &'text str,
    start: usize,
    rule: usize,
    tok_id: Option<u32>,
}

impl<'text> Tile<'text> {
    /// The id of its lexeme. A rule without a name gives none.
    #[inline]
    #[must_use]
    pub fn tok_id(&self) -> Option<u32> {
        self.tok_id
    }

    /// The number of its rule, from 0.
    #[inline]
    #[must_use]
    pub fn rule(&self) -> usize {
        self.rule
    }

    /// Its bytes in the text that is scanned.
    #[inline]
    #[must_use]
    pub fn span(&self) -> Range<usize> {
        self.start..self.start + self.text.len()
    }

    /// Its text.
    #[inline]
    #[must_use]
    pub fn text(&self) -> &'text str {
        self.text
    }
}

/// The tiles of a text, one after the other, for a parser that asks for them: also those of rules without a name. The definition may be
/// dropped before it.
///
/// If lexing stops before the text's end, the last item is that error. An item can also be [`Error::OutOfMemory`]: the scanner is then
/// where it was, and the next item is tried again.
pub struct Scanner<'text> {
    held: Held,
    text: &'text str,
    tiles: Vec<ffi::Tile>,
    next: usize,
    is_over: bool,
}

impl Scanner<'_> {
    /// How many tiles are asked for at a time.
    const ROOM: usize = 512;

    /// Asks for more tiles. The error is where lexing stops, or that memory ran out.
    #[cold]
    fn fill(&mut self) -> Result<(), Error> {
        let mut scanned = ffi::Scanned::default();
        self.next = 0;
        self.tiles.clear();
        self.tiles.try_reserve_exact(Self::ROOM)?;
        // SAFETY: there is room for `ROOM` tiles.
        checked(unsafe {
            ffi::lrlex_scanner_next(self.held.get(), self.tiles.as_mut_ptr(), Self::ROOM, &raw mut scanned)
        })?;
        // SAFETY: the call has written the first `count` of them.
        unsafe { self.tiles.set_len(scanned.count) };
        if scanned.count > 0 {
            return Ok(());
        }
        self.is_over = scanned.end != ffi::SCAN_MORE;
        if matches!(scanned.end, ffi::SCAN_MORE | ffi::SCAN_DONE) {
            return Ok(());
        }
        let (line, column) = place(self.text, scanned.place).inspect_err(|_| self.is_over = false)?;
        let state = (scanned.end == ffi::SCAN_NO_MATCH).then_some(scanned.state);
        Err(Error::Lex(LexError { start: scanned.place, line, column, state }))
    }
}

impl fmt::Debug for Scanner<'_> {
    fn fmt(&self, f: &mut fmt::Formatter<'_>) -> fmt::Result {
        f.debug_struct("Scanner").field("text", &self.text).field("is_over", &self.is_over).finish_non_exhaustive()
    }
}

impl<'text> Iterator for Scanner<'text> {
    type Item = Result<Tile<'text>, Error>;

    #[inline]
    fn next(&mut self) -> Option<Self::Item> {
        if self.next == self.tiles.len() {
            if self.is_over {
                return None;
            }
            if let Err(error) = self.fill() {
                return Some(Err(error));
            }
        }
        let it = self.tiles.get(self.next)?;
        self.next += 1;
        // SAFETY: the library scans a copy of this very text, and proves that both ends of a tile are character boundaries of it.
        let text = unsafe { self.text.get_unchecked(it.start..it.start + it.len) };
        Some(Ok(Tile { text, start: it.start, rule: it.rule, tok_id: it.has_id.then_some(it.id) }))
    }
}

impl FusedIterator for Scanner<'_> {}

//! What is wrong with a rule text, or hardly meant in it.

use std::fmt;

use crate::{Error, Fault, FaultSpan, Held, LexFlags, REPORT, checked, faults_in, ffi, name_by, number_in, text_by};

/// Room for most messages of warnings.
const MESSAGE: usize = 256;

/// The kinds of warnings, as `lrlex.h` names them.
#[derive(Clone, Copy, Debug, PartialEq, Eq, Hash)]
#[non_exhaustive]
pub enum WarningKind {
    /// A rule wins no text: it matches no byte, or other rules match as much or more.
    NeverWins,
    /// A rule is active in no start state.
    NeverActive,
    /// A rule has no table, and is slower: its pattern looks at what is beside the match.
    LooksAround,
    /// A rule has no table, and is slower: tables would be too large.
    NoTable,
    /// A pattern ends in what looks like a target.
    TargetInPattern,
    /// A pattern begins with a blank, behind its start states.
    BlankAfterStates,
    /// A pattern has a backslash that is dropped.
    LostEscape,
    /// A pattern behind start states has `\<` or `\>`, the ends of a word.
    EscapeAfterStates,
    /// An alternative of a pattern never matches, since an earlier one is its beginning.
    LostAlternative,
    /// A pattern ends in what looks like a name.
    NameInPattern,
    /// A pattern has quotes around it, which are part of it.
    QuotedPattern,
    /// A pattern is an operator alone.
    BareOperator,
    /// A pattern begins with `^`, which does nothing there.
    LostCaret,
    /// A pattern has `.*` or `.+`, which take all lines that follow.
    GreedyDot,
    /// A class of characters has an operator.
    ClassOperator,
    /// A pattern has `[:name:]` where it is a set of its characters.
    UnknownClass,
    /// No rule enters a start state.
    NeverEntered,
    /// No rule is active in a start state.
    NoRules,
    /// A kind that only a later `lrlex.h` names, by its number there.
    Other(u32),
}

impl WarningKind {
    /// The kinds by their numbers.
    const ALL: [WarningKind; 18] = [
        WarningKind::NeverWins,
        WarningKind::NeverActive,
        WarningKind::LooksAround,
        WarningKind::NoTable,
        WarningKind::TargetInPattern,
        WarningKind::BlankAfterStates,
        WarningKind::LostEscape,
        WarningKind::EscapeAfterStates,
        WarningKind::LostAlternative,
        WarningKind::NameInPattern,
        WarningKind::QuotedPattern,
        WarningKind::BareOperator,
        WarningKind::LostCaret,
        WarningKind::GreedyDot,
        WarningKind::ClassOperator,
        WarningKind::UnknownClass,
        WarningKind::NeverEntered,
        WarningKind::NoRules,
    ];

    fn of(number: u32) -> WarningKind {
        Self::ALL.get(number as usize).copied().unwrap_or(WarningKind::Other(number))
    }

    /// The name of the kind, such as `NeverWins`, as the C library has it. `None` if it has no such kind.
    #[must_use]
    pub fn name(self) -> Option<String> {
        let number = match self {
            WarningKind::Other(number) => number,
            known => number_in(&Self::ALL, known),
        };
        // SAFETY: there is room for `room` bytes.
        name_by(|out, room, len| unsafe { ffi::lrlex_warning_name(number, out, room, len) })
    }
}

/// A warning of a rule text: what is legal there and hardly meant.
#[derive(Clone, Debug, PartialEq, Eq)]
pub struct Warning {
    /// What kind of warning it is.
    pub kind: WarningKind,
    /// What is unusual, why, and what to write, in English.
    pub message: String,
    /// A rule's pattern with its list of start states, or a start state's name.
    pub span: FaultSpan,
}

impl fmt::Display for Warning {
    /// `LINE:COLUMN: Warning: MESSAGE [KIND]`.
    fn fmt(&self, f: &mut fmt::Formatter<'_>) -> fmt::Result {
        write!(f, "{}:{}: Warning: {} [{:?}]", self.span.line, self.span.column, self.message, self.kind)
    }
}

/// What [`check`] finds in a rule text.
#[derive(Clone, Debug, PartialEq, Eq)]
pub enum Finding {
    /// For this the rule text is refused. The message also says what to write where the mistake is usual.
    Fault(Fault),
    /// This is legal and hardly meant.
    Warning(Warning),
}

impl Finding {
    /// Whether it is a fault.
    #[must_use]
    pub fn is_fault(&self) -> bool {
        matches!(self, Finding::Fault(_))
    }
}

impl fmt::Display for Finding {
    /// As the fault or the warning.
    fn fmt(&self, f: &mut fmt::Formatter<'_>) -> fmt::Result {
        match self {
            Finding::Fault(it) => it.fmt(f),
            Finding::Warning(it) => it.fmt(f),
        }
    }
}

/// All faults of a rule text, or its warnings if it has none. It goes on below a faulty line, at which the faults of a
/// [`RulesError`](crate::RulesError) end.
///
/// ```
/// use lrlex::{Finding, LexFlags, WarningKind};
///
/// let found = lrlex::check("%%\n[a-z]+ 'ID'\nif 'IF'\n", &LexFlags::default())?;
/// let [Finding::Warning(it)] = &found[..] else { panic!() };
/// assert_eq!((it.kind, it.span.line), (WarningKind::NeverWins, 3));
/// let found = lrlex::check("word\n%%\n( 'A'\n", &LexFlags::default())?;
/// assert_eq!(found.iter().filter(|it| it.is_fault()).count(), 2);
/// # Ok::<(), lrlex::Error>(())
/// ```
///
/// # Errors
///
/// [`Error::OutOfMemory`].
pub fn check(rules: &str, flags: &LexFlags) -> Result<Vec<Finding>, Error> {
    let (held, is_refused) = read(rules, flags)?;
    if is_refused {
        return Ok(faults_in(&held, ffi::lrlex_fault_message)?.into_iter().map(Finding::Fault).collect());
    }
    warnings_in(&held, rules)?.iter().map(|it| Ok(Finding::Warning(warning(it)?))).collect()
}

/// A report of what [`check`] finds for people. Of each it has `FILE:LINE:COLUMN`, the message, the line, and carets under the place.
/// Empty if nothing is found. `file` is the name to show.
///
/// ```
/// # use lrlex::LexFlags;
/// let report = lrlex::check_report("%%\n[a-z]+ 'ID'\nif 'IF'\n", "words.l", &LexFlags::default())?;
/// assert!(report.starts_with("words.l:3:1: Warning: this rule never wins"));
/// assert!(report.ends_with(" [NeverWins]\n3 | if 'IF'\n  | ^^\n"));
/// # Ok::<(), lrlex::Error>(())
/// ```
///
/// # Errors
///
/// [`Error::OutOfMemory`].
pub fn check_report(rules: &str, file: &str, flags: &LexFlags) -> Result<String, Error> {
    let (held, is_refused) = read(rules, flags)?;
    let text = text_by(REPORT, |out, room, len| {
        let (name, size, text, bytes) = (file.as_ptr(), file.len(), rules.as_ptr(), rules.len());
        if is_refused {
            // SAFETY: (here and below) pointers and lengths are those of `&str`s, and there is room for `room` bytes.
            unsafe { ffi::lrlex_fault_report(held.get(), name, size, out, room, len) }
        } else {
            unsafe { ffi::lrlex_warning_report(held.get(), name, size, text, bytes, out, room, len) }
        }
    })?;
    Ok(text.unwrap_or_default())
}

/// The handle of a rule text, and whether it has faults. It has the text's definition if not.
fn read(rules: &str, flags: &LexFlags) -> Result<(Held, bool), Error> {
    let (held, options) = (Held::empty(), flags.options());
    // SAFETY: pointer and length are a `&str`'s, and the handle is empty.
    match unsafe { ffi::lrlex_check(held.get(), rules.as_ptr(), rules.len(), &raw const options) } {
        ffi::REFUSED => Ok((held, true)),
        status => checked(status).map(|()| (held, false)),
    }
}

/// The warnings of a rule text, whose definition the handle has. Where there are more than there is room for, the call is made twice.
fn warnings_in(held: &Held, rules: &str) -> Result<Vec<ffi::Warning>, Error> {
    let (mut found, mut count) = (Vec::new(), 64);
    while count > found.len() {
        found.try_reserve_exact(count - found.len())?;
        found.resize(count, ffi::Warning::default());
        let (text, room) = (rules.as_ptr(), found.len());
        // SAFETY: pointer and length are a `&str`'s, and there is room for `room` warnings.
        checked(unsafe {
            ffi::lrlex_warnings(held.get(), text, rules.len(), found.as_mut_ptr(), room, &raw mut count)
        })?;
    }
    found.truncate(count);
    Ok(found)
}

fn warning(it: &ffi::Warning) -> Result<Warning, Error> {
    // SAFETY: there is room for `room` bytes.
    let message = text_by(MESSAGE, |out, room, len| unsafe { ffi::lrlex_warning_text(it.kind, out, room, len) })?;
    let span = FaultSpan { span: it.start..it.end, line: it.line, column: it.column };
    Ok(Warning { kind: WarningKind::of(it.kind), message: message.unwrap_or_default(), span })
}

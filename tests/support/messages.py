"""What the messages of faults end with, and those of warnings."""

BEFORE_RULES = "a line before %% is %s or %x with names of start states; rules come after it"
OPTION = "options of flex aren't read; leave the line out, and give flags, as case_insensitive, outside the text"
CODE = "blocks of code aren't read; leave them out"
DEFINITION = "definitions of patterns aren't read; leave the line out, and write the pattern in each rule, in place of {NAME}"
NO_MARK = "no line begins with %%; write one before the rules"
COMMENT = "a comment is a line that begins with //, and only with the flag allow_wholeline_comments"
QUOTES = "write it in quotes and without blanks, or ; for no name; no action or comment follows it"
BAR = "| takes no name from the next rule; write both patterns in one rule, as a|b, or give each a name"
ACTION = "actions aren't read; write a name in quotes, or ; for no name, and nothing after it"
DECLARE = "declare it with %s or %x"
DECLARE_LIST = "declare it with %s or %x; commas separate the names of a list, and a target stands before the rule's name; a pattern that begins with the character < begins with \\<"
NO_END = "no rule matches at the end of the text; leave it out"
LIST = "a pattern that begins with < lists start states; write \\< for the character"
BACKSLASH = "the pattern ends in a backslash; write [ ] for a blank, \\\\ for a backslash"
MARGIN = "white space begins the line; write the rule without it, or an empty line"
OPERATOR = "write a backslash before each operator to match its character, as \\+ or \\("
IN_QUOTES = "the quotes are part of the pattern; leave them out, and write operators with a backslash, as \\("
BRACES = "a name in braces stands for no pattern; write the pattern in its place"
NUMBER = "\\x{..} and \\u{..} lose their backslash in a rule without start states; write \\U0001F600, or <INITIAL>\\u{1F600}"
IN_CLASS = (
    "in a class [ begins another, and --, && and ~~ are operations on sets; write a backslash before the character, as \\[ or \\-"
)
RULE = "a rule is a pattern, a space or a tab, and a name in quotes, or ; for no name"
STATE_NAME = "a name is an ASCII letter, then ASCII letters, digits, _ or .; one blank separates two names"
ROUTINES = "%% ends the rules, and only white space may follow; write \\%% for a pattern that begins with it"

NEVER_WINS = "this rule never wins: it matches no byte, or other rules match as much or more; put it before them, or make them match less"
LOOKS = (
    "this rule has no table, and is slower: $, \\b, \\B, \\z, \\<, \\> and a ^ within it look at what is beside the match; "
    "leave them out, or write a backslash before $ and ^ for the characters"
)
NO_TABLE = (
    "this rule has no table, and is slower: its table, or all tables together, would be too large; repeat fewer times, "
    "split the pattern, or have fewer rules"
)
IN_PATTERN = "this target is part of the pattern; write no blank between the target and the name"
BLANK = "the blank after these start states is part of the pattern; leave it out, or write [ ]"
LOST = "a backslash is dropped here, before a letter that begins no escape; write the letter, or \\x41 in place of \\x{41}"
WORD = "after start states \\< and \\> are the beginning and the end of a word; write < and > without the backslash"
NAME_IN_PATTERN = "this name is part of the pattern, since the last blank of a line is before its name; write nothing after the name"
QUOTED = "the quotes are part of this pattern; leave them out, and write operators with a backslash, as \\+"
BARE = "this pattern is an operator, and matches no byte; write a backslash before it to match its character"
CARET = "a ^ at the beginning does nothing, since a match may begin anywhere in a line; leave it out, or write \\^ for the character"
DOT = (
    "a . matches a newline too, so .* and .+ take all lines that follow; write [^\\n] in place of the dot, "
    "or .*? before what ends it"
)
CLASS = (
    "this class has an operator: [ begins another class, and --, && and ~~ are operations on sets; "
    "write a backslash before the character, as \\[ or \\-"
)
CLASS_NAME = (
    "this [:name:] is no class with a name, but a set of its characters; write it within a class, as [[:alpha:]], and one of "
    "alnum, alpha, ascii, blank, cntrl, digit, graph, lower, print, punct, space, upper, word or xdigit"
)
SHORTER = "an alternative never matches here: it begins with an earlier one, which is tried first; put the longer one first"
NEVER_ENTERED = "no rule enters this start state; name it as the target of a rule"
NO_RULES = "no rule is active in this start state, so lexing stops there; list it before a pattern"

# The kind of a warning with this message.
KINDS = {
    NEVER_WINS: "NeverWins", LOOKS: "LooksAround", NO_TABLE: "NoTable", IN_PATTERN: "TargetInPattern", BLANK: "BlankAfterStates",
    LOST: "LostEscape", WORD: "EscapeAfterStates", SHORTER: "LostAlternative", NAME_IN_PATTERN: "NameInPattern", QUOTED: "QuotedPattern",
    BARE: "BareOperator", CARET: "LostCaret", DOT: "GreedyDot", CLASS: "ClassOperator", CLASS_NAME: "UnknownClass",
    NEVER_ENTERED: "NeverEntered", NO_RULES: "NoRules",
}

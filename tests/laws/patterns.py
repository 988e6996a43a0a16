"""Random patterns."""

# Patterns of a few characters that are valid with and without `unicode`.
ASCII = [
    "a", "b", "c", "A", "ab", "ba", "if", "foo", "0", "[0-9]", "[a-c]", "[a-z]", "[A-Z]", "[\\x20\\n]", "\\x20", "\\n", "()", "^",
    "$", "\\b", "\\A", "\\z", "_", "-", "\\x61", "\\055", "(?-u:\\w)", "(?-u:\\d)", "(?-u:\\s)", "(?-u:\\b)", "(?-u:[a-k])",
]

# Patterns of a few characters that are valid with `unicode` alone.
BEYOND = [
    ".", "é", "α", "日", "😀", "[à-ü]", "\\p{Greek}", "\\p{L}", "\\P{L}", "[^a]", "[^a-c\\n]", "\\w", "\\W", "\\d", "\\D", "\\s", "\\S",
    "[α-ω]", "[日本語]", "[^é]", "[😀-😏]", "k", "s", "\\p{Lu}", "(?i:k)", "(?i:é)", "[\\w&&[^b]]", "\\pN", "\\B", "(?-s:a.?)",
]

# How two patterns, in the place of `@` and `#`, are put together.
FORMS = [
    "@#", "@#", "@#", "@|#", "@|#", "#|@", "(@|#)", "(@|#)#", "(@)*#", "(@)+#", "(@)?#", "#(@)*?", "#(@)+?", "(@)??#", "(@){2}#",
    "(@){1,3}#", "(@){2,}", "(@){0,2}?#", "(@|#)*", "(@|#)+", "(?i)@#", "(?i:@)#", "(?s:@)#", "(?-m:@)#", "(?U:@)#", "@|", "|@",
    "(?:@)(?:#)", "(?:@#)|@", "(?-i:@)#", "#$", "^@", "\\b@", "@\\b", "@(?x: # )",
]

# Patterns whose tables have many rows.
LARGE = [
    "(a|b)*a(a|b){12}", "(a|b)*a(a|b){9}", "(a|b)*b(a|b|c){6}", "[ab]*a[ab]{10}c?", "(.*a.{8}|b)", "(ab|ba|c)*a(a|b){7}$",
    "([^a]*a[^b]{7})", "(a?){12}a{12}", "(\\p{L}*é\\p{L}{4})", "([a-c]*0[a-c0]{8})",
]

# Patterns that take a whole word or a comment, as rule files have them.
USUAL = [
    "[a-zA-Z_][a-zA-Z0-9_]*", "[0-9]+", "[\\x20\\n]+", "if", "foo", "a+b", "a*", "(a|b)+", "ab*?c", "a{2,4}", "-[^\\n]*\\n", "\\w+",
    "(?i)foo", "[à-ü]+", "\\p{Greek}+", ".", "[^a-z]+", "^a+", "a+$",
]


def atom(chance, unicode):
    """One of the patterns that may be used."""
    return chance.one_of(BEYOND if unicode and chance.one_in(2) else ASCII)


def filled(form, left, right):
    """The form, with these two in the place of `@` and `#`."""
    parts = {"@": left, "#": right}
    return "".join(parts.get(c, c) for c in form)


def join_two(chance, parts):
    """Puts the last two parts together, and the whole after the others or before them."""
    left, right = parts.pop(), parts.pop()
    whole = filled(chance.one_of(FORMS), left, right)
    parts.insert(len(parts) if chance.one_in(2) else 0, whole)


def grown(chance, unicode):
    """A pattern that is put together from smaller ones."""
    parts = [atom(chance, unicode)]
    for _ in range(1, chance.below(7)):
        parts.append(atom(chance, unicode))
    for _ in range(1, len(parts)):
        join_two(chance, parts)
    return parts[0]


def pattern(chance, unicode):
    """A random pattern. Without `unicode` it asks for no character beyond ASCII."""
    kind = chance.below(10)
    if unicode and kind == 0:
        return chance.one_of(LARGE)
    if unicode and kind <= 3:
        return chance.one_of(USUAL)
    return grown(chance, unicode)

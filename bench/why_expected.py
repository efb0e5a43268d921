"""What is expected in place of a wrong word of a file, by the grammar of docs/files.md, for bench/why_rows.py.

The grammar stands here as that page has it, a production a line, and any parser of such grammars will do: this is Earley's. It knows
nothing of the program's table, and nothing of levels: where a limit of levels has a say, a row tells by hand what is expected.
"""
import re

TOKEN = re.compile(rb"[A-Za-z][A-Za-z0-9_]*|[0-9]+|'[ -&(-~]*'|==>|<=>|--\[|\]->|-->|\|\||[^ \t\r\n]", re.S)
SKIP = re.compile(rb"(?:[ \t\r\n]|//[^\n]*|/\*.*?\*/)*", re.S)
RESERVED = (
    "theory begin end builtins functions let process restriction lemma rule new out in if then else event insert delete lookup as lock"
    " unlock All Ex not"
).split()

# Terminals: 'sign' or reserved word in quotes; =name a name that is this one; NAME any name; SMALL, CAPITAL names by their first letter;
# OTHER any name but T and F, which are truth values where no parenthesis is behind them; QUOTED a name in quotes; ZERO the number 0; ARITY a number up to 64. What is Short ends in no
# quantifier, which would reach further.
GRAMMAR = """
File = 'theory' NAME 'begin' Items
Items = 'end' | Item Items
Item = 'builtins' ':' Builtins
Item = 'functions' ':' Functions
Item = 'let' NAME '=' P
Item = 'let' NAME '(' Names ')' '=' P
Item = 'process' ':' P
Item = 'restriction' NAME ':' '"' Formula '"'
Item = 'lemma' NAME Brackets ':' Mode '"' Formula '"'
Builtins = Builtin | Builtin ',' Builtins
Builtin = =hashing | =symmetric '-' =encryption | =asymmetric '-' =encryption | =signing | =revealing '-' =signing
Functions = Function | Function ',' Functions
Function = SMALL '/' ARITY | SMALL '/' ARITY '[' =private ']'
Names = NAME | NAME ',' Names
Brackets = | '[' Attributes ']'
Attributes = Attribute | Attribute ',' Attributes
Attribute = =reuse | =use_induction | =sources
Mode = | =all '-' =traces | =exists '-' =trace
P = S | S '|' P | S '||' P
S = ZERO | NAME | NAME '(' Terms ')' | '(' P ')' | '!' S | Action | Action ';' S
S = 'if' Term '=' Term 'then' S | 'if' Term '=' Term 'then' S 'else' S
S = 'lookup' Term 'as' NAME 'in' S | 'lookup' Term 'as' NAME 'in' S 'else' S
Action = 'new' NAME | 'new' '~' NAME
Action = 'out' '(' Term ')' | 'out' '(' Term ',' Term ')'
Action = 'in' '(' Term ')' | 'in' '(' Term ',' Term ')'
Action = 'event' Linear
Action = 'insert' Term ',' Term | 'delete' Term | 'lock' Term | 'unlock' Term
Action = '[' Sides ']' '-->' '[' Sides ']' | '[' Sides ']' '--[' Shown ']->' '[' Sides ']'
Linear = CAPITAL '(' Arguments ')'
Fact = Linear | '!' Linear
Sides = | Facts
Facts = Fact | Fact ',' Facts
Shown = | Linears
Linears = Linear | Linear ',' Linears
Arguments = | Terms
Terms = Term | Term ',' Terms
Term = NAME | '~' NAME | '$' NAME | QUOTED | SMALL '(' Arguments ')' | '<' Term ',' Terms '>'
Formula = Implication | ShortImplication '<=>' Implication
Implication = Or | ShortOr '==>' Implication
Or = And | ShortOr '|' And
And = Not | ShortAnd '&' Not
Not = Atom | 'not' Not | 'All' Binders '.' Formula | 'Ex' Binders '.' Formula | '(' Formula ')'
ShortImplication = ShortOr | ShortOr '==>' ShortImplication
ShortOr = ShortAnd | ShortOr '|' ShortAnd
ShortAnd = ShortNot | ShortAnd '&' ShortNot
ShortNot = Atom | 'not' ShortNot | '(' Formula ')'
Binders = Binder | Binder Binders
Binder = NAME | '~' NAME | '$' NAME | '#' NAME
Atom = =T | =F | Linear '@' Time | First '=' Term | '#' NAME '=' '#' NAME | Early '<' Time
Time = NAME | '#' NAME
Early = OTHER | '#' NAME
First = OTHER | '~' NAME | '$' NAME | QUOTED | SMALL '(' Arguments ')' | '<' Term ',' Terms '>'
"""


def rules():
    made = {}
    for line in GRAMMAR.strip().split("\n"):
        head, body = line.split(" = ", 1) if " = " in line else line.split(" =", 1)
        for side in re.split(r" \| |^\| ", " " + body.strip() if body.strip().startswith("|") else body.strip()):
            made.setdefault(head, []).append(tuple(side.split()))
    return made


RULES = rules()
EMPTY = {head for head, sides in RULES.items() if () in sides}

# The kinds of words, in their order, and how they are put; the signs, the words and the names that are kinds of their own.
SIGNS = ": , ; . = - / ( ) [ ] < > \" ! | || --> --[ ]-> ~ $ # @ & ==> <=>".split()
WORDS = [word for word in RESERVED if word != "rule"]
NAMES = (
    "hashing symmetric asymmetric signing revealing encryption private reuse use_induction sources all exists traces trace".split()
)
LETTERS = ["x", "X"] + NAMES + ["T", "F"]
TERM = LETTERS + ["'x'", "~", "$", "<"]
KINDS = [
    ("an item", "builtins functions let process restriction lemma".split()),
    ("a process", LETTERS + "0 ( ! [ new out in if event insert delete lookup lock unlock".split()),
    ("a formula", TERM + "( # All Ex not".split()),
    ("a term", TERM),
    ("a name", LETTERS),
    ("a name with a small letter first", ["x"] + NAMES),
    ("a name with a capital first", ["X", "T", "F"]),
    ("a name in quotes", ["'x'"]),
    ("a number up to 64", ["0", "1"]),
    ("0", ["0"]),
] + [(word, [word]) for word in SIGNS + WORDS + NAMES]


def fits(terminal, word):
    """Whether the word is one of the terminal."""
    is_name = re.fullmatch(r"[A-Za-z][A-Za-z0-9_]*", word) and word not in RESERVED
    if terminal[0] == "'" and len(terminal) > 1:
        return word == terminal[1:-1]
    if terminal[0] == "=":
        return word == terminal[1:]
    if terminal == "NAME":
        return bool(is_name)
    if terminal == "OTHER":
        return bool(is_name) and word not in "TF"
    if terminal == "SMALL":
        return bool(is_name) and word[0].islower()
    if terminal == "CAPITAL":
        return bool(is_name) and word[0].isupper()
    if terminal == "QUOTED":
        return word[0] == "'"
    if terminal == "ZERO":
        return word == "0"
    assert terminal == "ARITY", terminal
    return word.isdigit() and int(word) <= 64


def tokens(data):
    """The words of a file, and where each stands."""
    found, at = [], SKIP.match(data, 0).end()
    while at < len(data):
        word = TOKEN.match(data, at)
        found.append((word.group().decode("latin-1"), at))
        at = SKIP.match(data, word.end()).end()
    return found


def wanted(words):
    """The terminals that may stand behind these words; None, where no file begins with them."""
    sets = [{}]

    def put(number, item, todo):
        if item not in sets[number]:
            sets[number][item] = None
            todo.append(item)

    def close(number):
        todo = list(sets[number])
        waiting = {}
        while todo:
            head, side, dot, origin = todo.pop()
            if dot == len(side):
                for other in list(sets[origin]):
                    if other[2] < len(other[1]) and other[1][other[2]] == head:
                        put(number, (other[0], other[1], other[2] + 1, other[3]), todo)
            elif side[dot] in RULES:
                for body in RULES[side[dot]]:
                    put(number, (side[dot], body, 0, number), todo)
                if side[dot] in EMPTY:
                    put(number, (head, side, dot + 1, origin), todo)

    for body in RULES["File"]:
        sets[0][("File", body, 0, 0)] = None
    close(0)
    for number, word in enumerate(words):
        sets.append({})
        for head, side, dot, origin in sets[number]:
            if dot < len(side) and side[dot] not in RULES and fits(side[dot], word):
                sets[number + 1][(head, side, dot + 1, origin)] = None
        if not sets[number + 1]:
            return None
        close(number + 1)
    return {side[dot] for _, side, dot, _ in sets[-1] if dot < len(side) and side[dot] not in RULES}


def kinds(terminals):
    """The kinds of the words that may stand, the wider alone."""
    may = [all(any(fits(t, word) for t in terminals) for word in of) for _, of in KINDS]
    named = []
    for k, (text, of) in enumerate(KINDS):
        if may[k] and not any(may[j] and set(of) <= set(KINDS[j][1]) for j in range(k)):
            named.append(text)
    return named


def may_stand(named):
    if not named:
        return "Nothing may stand here"
    if len(named) == 1:
        return "Here may stand: " + named[0]
    return "Here may stand: " + ", ".join(named[:-1]) + " or " + named[-1]


def opened(data, found):
    """That a bracket or a quotation mark is open behind these words, the innermost, with its line and column."""
    marks = []
    for word, at in found:
        if word in ("(", "[", "--["):
            marks.append((word, at))
        elif word in (")", "]", "]->"):
            marks = marks[:-1]
        elif word == '"':
            if marks and marks[-1][0] == '"':
                marks = marks[:-1]
            else:
                marks.append((word, at))
    if not marks:
        return ""
    word, at = marks[-1]
    return "Open is %s at line %d, column %d\n" % (word, data.count(b"\n", 0, at) + 1, at - data.rfind(b"\n", 0, at))


def expectation(data, at, by_hand):
    """The lines of what is expected of the word at this offset, or behind the last word; by hand where levels have a say."""
    found = tokens(data)
    before = [(word, start) for word, start in found if start < at]
    if by_hand and by_hand.startswith("No "):
        return by_hand + "\n"
    terminals = wanted([word for word, _ in before])
    assert terminals is not None, (data, before[-1])
    here = [word for word, start in found if start >= at][:1]
    if not by_hand:
        assert not here or not any(fits(t, here[0]) for t in terminals), (data, at, here)
    return (by_hand or may_stand(kinds(terminals))) + "\n" + opened(data, before)

"""Random changes of programs, inputs and traces, for tests/fuzz.py."""
import re

from runs import TOP

TOKEN = re.compile(r"//[^\n]*|[A-Za-z_]\w*|\d+|<=|>=|==|!=|\s+|.", re.S)
NUMBERS = ["0", "1", "2", "3", "7", "8", "99", "255", "256", "257", "1000", "9223372036854775807"]
OPERATORS = ["+", "-", "*", "/", "%", "<", "<=", ">", ">=", "==", "!=", "and", "or"]
STATEMENTS = ["skip;", "print 1;", "fault 3;", "async { skip; }", "finish { }", "async { print 5; }", "var fresh = 4;",
              "finish { async { print 2; } print 3; }", "if true { skip; } else { fault 1; }", "async { fault 2; }",
              "while false { }", "print 1, 2 / 0;", "fault 9223372036854775807 + 1;",
              "parts a by 2 as piece, turn { async { piece[0] = turn; } }",
              "finish { async { fault 1; } } rescue n { print n; }"]
WORDS = ["async", "finish", "if", "while", "else", "split", "at", "as", "len", "not", "true", "false", "mut", "read", "int",
         "byte", "array", "proc", "main", "parts", "by", "rescue", "print", "fault", "var"]
BYTES = "{}()[];,=+-*/%<>!x0 \n\"@\u00e9\0"


def tokens_of(text):
    return TOKEN.findall(text)


def is_name(token):
    return re.match(r"[A-Za-z_]", token) is not None


def places(tokens, test):
    return [at for at, token in enumerate(tokens) if test(token)]


def change_number(tokens, rng):
    """Another number."""
    found = places(tokens, str.isdigit)
    if found:
        at = rng.choice(found)
        near = [str(max(0, int(tokens[at]) + step)) for step in (-1, 1)]
        tokens[at] = rng.choice(NUMBERS + near * 4)


def change_name(tokens, rng):
    """Another name of the text."""
    found = places(tokens, lambda token: is_name(token) and token not in WORDS)
    if found:
        tokens[rng.choice(found)] = tokens[rng.choice(found)]


def change_operator(tokens, rng):
    found = places(tokens, lambda token: token in OPERATORS)
    if found:
        tokens[rng.choice(found)] = rng.choice(OPERATORS)


def statement_ends(tokens):
    """Where a statement may begin: after `;`, `{` or `}`."""
    return [at + 1 for at, token in enumerate(tokens) if token in (";", "{", "}")]


def add_statement(tokens, rng):
    tokens.insert(rng.choice(statement_ends(tokens) or [0]), " " + rng.choice(STATEMENTS) + " ")


def block_end(tokens, at):
    """Just after the block that begins at a `{`, or the end of the text."""
    depth = 0
    for end in range(at, len(tokens)):
        depth += (tokens[end] == "{") - (tokens[end] == "}")
        if depth == 0 and tokens[end] == "}":
            return end + 1
    return len(tokens)


def statement_at(tokens, at):
    """The end of the statement that begins here."""
    for end in range(at, len(tokens)):
        if tokens[end] == ";":
            return end + 1
        if tokens[end] == "{":
            return block_end(tokens, end)
        if tokens[end] == "}":
            return end
    return len(tokens)


def wrap_statement(tokens, rng):
    """A statement inside a block."""
    at = rng.choice(statement_ends(tokens) or [0])
    end = statement_at(tokens, at)
    if end > at:
        tokens.insert(end, " } ")
        tokens.insert(at, rng.choice([" async { ", " finish { ", " if true { ", " finish { async { skip; } ",
                                        " parts a by 3 as part, number { "]))


def drop_statement(tokens, rng):
    at = rng.choice(statement_ends(tokens) or [0])
    del tokens[at:statement_at(tokens, at)]


def double_statement(tokens, rng):
    at = rng.choice(statement_ends(tokens) or [0])
    tokens[at:at] = tokens[at:statement_at(tokens, at)]


def unwrap_block(tokens, rng):
    """A block without its header: `finish { .. }` and `async { .. }` become what is inside."""
    found = [at for at, token in enumerate(tokens) if token in ("finish", "async")]
    if found:
        at = rng.choice(found)
        opening = next((n for n in range(at, len(tokens)) if tokens[n] == "{"), None)
        if opening is not None:
            end = block_end(tokens, opening)
            tokens[at:end] = tokens[opening + 1:end - 1]


def swap_words(tokens, rng):
    found = places(tokens, lambda token: token in WORDS)
    if found:
        tokens[rng.choice(found)] = rng.choice(WORDS)


def drop_token(tokens, rng):
    if tokens:
        del tokens[rng.randrange(len(tokens))]


def change_character(tokens, rng):
    if tokens:
        tokens[rng.randrange(len(tokens))] = rng.choice(BYTES)


# The first ones leave most texts programs that are accepted; the last three leave few.
CHANGES = [change_number, change_name, change_operator, add_statement, wrap_statement, drop_statement, double_statement,
           unwrap_block] * 4 + [swap_words, drop_token, change_character]


def changed_program(text, rng):
    """A text with one to four changes."""
    tokens = tokens_of(text)
    for _ in range(rng.choice([1, 1, 1, 2, 2, 3, 4])):
        rng.choice(CHANGES)(tokens, rng)
    return "".join(tokens)


def changed_bytes(content, rng, pieces):
    """Bytes with some of them exchanged, left out or doubled."""
    content = bytearray(content)
    for _ in range(rng.choice([1, 1, 2, 5])):
        at = rng.randrange(len(content) + 1)
        end = min(len(content), at + rng.choice([0, 1, 1, 2, 10]))
        content[at:end] = rng.choice([b"", b"", content[at:end] * 2, rng.choice(pieces)])
    return bytes(content)


INPUT_PIECES = [b"0", b"-1", b"256", b"1.5", b"1e2", b",", b"[", b"]", b"[]", b"{", b"}", b"null", b'"a"', b'"', b" ", b"\xff",
                b"9223372036854775808", b'"a":[1],', b"-0", b"\\u0061"]
TRACE_PIECES = [b"0", b"1", b"64", b".1", b"#", b'"', b" ", b"\n", b"\xff", b"take", b"step", b'{"e":"step","path":"0"}\n', b"{", b"}"]


def changed_trace(content, rng):
    """Lines exchanged, doubled and left out, or bytes that are changed."""
    lines = content.split(b"\n")
    way = rng.randrange(5)
    at, other = rng.randrange(len(lines)), rng.randrange(len(lines))
    if way == 0:
        lines[at], lines[other] = lines[other], lines[at]
    elif way == 1:
        lines.insert(other, lines[at])
    elif way == 2:
        del lines[at]
    elif way == 3:
        lines = lines[:at]
        return b"\n".join(lines) + b"\n"
    else:
        return changed_bytes(content, rng, TRACE_PIECES)
    return b"\n".join(lines)


def seeds_of_cases():
    """The programs of examples/ with their inputs; also those that are refused."""
    found = []
    for path in sorted((TOP / "examples").glob("**/*.afx")):
        given = path.with_suffix(".json")
        found.append((path.stem, path.read_bytes().decode(), given.read_bytes() if given.exists() else None))
    return found

"""The names in the text of a crate, each with what it says and what stands behind it.

Two readers, one for each language: `antt_names` for specs/ and proofs/, `rattle_names` for src/. Both
give words: white space and comments count for nothing. Text that belongs to no name is an error,
so that nothing can change unseen.
"""
import re
from collections import namedtuple

# kind: 'record', 'abbrev' (its text is part of every statement that cites it), 'plain', 'ruleset', 'fn', 'type', or 'tactics' of a file
# says: the words of its statement; does: the words of its body, its clauses or its proof; tactics: its attributes #[tactic(..)], which are proof
Name = namedtuple('Name', 'name kind public says does tactics', defaults=('',))

ANTT_WORD = re.compile(r'[(){}.;,@"]|«[^»]*»|[^\s(){}.;,@"«»]+')
SIGNATURE = re.compile(r'((?:(?:unfoldable|abbrev|axiom|pub)\s+)*)([^\s(){}.;,@"]+)(?:\s*\{[^}]*\})?\s*:(?=\s|$)')
DECLARED = re.compile(r'(pub\s+)?(record|data)\s+([^\s(){}.;,@"]+)')
RULES = re.compile(r'(?:pub\s+)?ruleset\s+([^\s(){}.;,@"]+)\s*=')
# A quote behind a name is a part of it, and one with no other two characters on begins a lifetime.
LITERAL = (r'\bb?r"[^"]*"|\bb?r#".*?"#|(?:\bb)?"(?:\\.|[^"\\])*"'
           r"|(?<![\w'])(?:b'|')(?:\\.[^']*|[^'\\])'")
RATTLE_WORD = re.compile(LITERAL + r'|[^\W\d]\w*|\d\w*|->|=>|::|\S', re.S)


class Unread(Exception):
    """Text that belongs to no name."""


def blank(match):
    return re.sub(r'[^\n]', ' ', match[0])


def antt_without_comments(text):
    text = re.sub(r'\{-.*?-\}', blank, text, flags=re.S)
    return re.sub(r'(^|(?<=[\s(){}.;,]))--[^\n]*', blank, text, flags=re.M)


def rattle_without_comments(text):
    return re.sub(rf'({LITERAL})|//[^\n]*|/\*.*?\*/', lambda match: match[1] or blank(match), text, flags=re.S)


def antt_words(lines):
    return ' '.join(ANTT_WORD.findall('\n'.join(lines)))


def indent_of(line):
    return len(line) - len(line.lstrip())


def items_in(lines):
    """Lines that begin at the least indentation, each with the lines below it."""
    lines = [line for line in lines if line.strip()]
    if not lines:
        return []
    left, items = indent_of(lines[0]), []
    for line in lines:
        if indent_of(line) <= left:
            items.append([])
        items[-1].append(line)
    return items


def antt_names(text):
    """The declarations of a file of specs/ or proofs/, those in `module _` blocks among them."""
    return antt_block(antt_without_comments(text).split('\n'), '')


def antt_block(lines, given):
    """`given` are the parameters of the blocks around: part of each statement in them."""
    found, at = [], None
    for item in items_in(lines):
        first = item[0].strip()
        if re.match(r'((unfoldable )?pub )?(use|mod)\s', first):
            at = None
        elif re.match(r'module\s', first):
            head = next(i for i, line in enumerate(item) if line.split()[-1] == 'where')
            found += antt_block(item[head + 1:], ' '.join(filter(None, [given, antt_words(item[:head + 1])])))
            at = None
        elif match := RULES.match(first):
            at = [match[1], 'ruleset', False, [given], [antt_words(item)]]
            found.append(at)
        elif match := DECLARED.match(first):
            at = [match[3], 'record', bool(match[1]), [given, antt_words(item)], []]
            found.append(at)
        elif match := SIGNATURE.match(' '.join(item).strip()):
            kind = 'abbrev' if 'abbrev' in match[1] or 'unfoldable' in match[1] else 'plain'
            at = [match[2], kind, 'pub' in match[1], [given, antt_words(item)], []]
            found.append(at)
        elif at:
            at[4].append(antt_words(item))
        else:
            raise Unread(first)
    return [d if isinstance(d, Name) else Name(d[0], d[1], d[2], ' '.join(filter(None, d[3])), ' '.join(d[4])) for d in found]


def antt_imports(text):
    """Name and where it is taken from, for each name that a `use` line brings in."""
    return imports_in(re.findall(r'^(?:unfoldable )?(?:pub )?use\s+([^\n]*(?:\n[ \t]+[^\n]*)*)', antt_without_comments(text), re.M))


def rattle_imports(text):
    """The same for `ghost use` items, which bring in what the contracts cite."""
    return imports_in(re.findall(r'\bghost\s+use\s+([^;]*);', rattle_without_comments(text)))


def imports_in(uses):
    found = {}
    for use in uses:
        use = ' '.join(use.split())
        if match := re.fullmatch(r'(\S+?)\.\{(.*)\}', use):
            for leaf in match[2].split(','):
                words = leaf.split()
                if words:
                    found[words[-1]] = match[1] + '.' + words[0 if words[0] != 'syntax' else -1]
        elif match := re.fullmatch(r'(\S+) as (\S+)', use):
            found[match[2]] = match[1]
    return found


def close_of(words, at):
    """The index of the word that closes the bracket at `at`."""
    depth = 0
    for i in range(at, len(words)):
        depth += (words[i] in ('{', '(', '[')) - (words[i] in ('}', ')', ']'))
        if depth == 0:
            return i
    raise Unread(' '.join(words[at:at + 12]))


def first_of(words, at, wanted):
    """The index of the first of these words from `at` on, in no bracket."""
    while at < len(words) and words[at] not in wanted:
        at = close_of(words, at) + 1
    if at >= len(words):
        raise Unread(' '.join(words[-12:]))
    return at


def past_parameters(words, at):
    """Behind the type parameters that stand at `at`, if any do."""
    depth, i = 0, at
    while i < len(words):
        depth += (words[i] == '<') - (words[i] == '>')
        if depth == 0:
            return i + (words[i] == '>')
        i += 1
    raise Unread(' '.join(words[at:at + 12]))


def rattle_names(text):
    """The functions and types of a file of src/. A method is named after its type, and one of a trait after its type and the trait."""
    words, found = RATTLE_WORD.findall(rattle_without_comments(text)), []
    try:
        rattle_block(words, 0, len(words), '', found)
    except IndexError:
        raise Unread(' '.join(words[-12:])) from None
    return found


def rattle_block(words, at, end, owner, found):
    while at < end:
        at = rattle_item(words, at, owner, found)


def attributes_at(words, at):
    """Behind the attributes at `at`: the words of those that name tactics, and of the others."""
    tactics, others = [], []
    while words[at:at + 2] == ['#', '[']:
        stop = close_of(words, at + 1) + 1
        (tactics if words[at + 2] == 'tactic' else others).extend(words[at:stop])
        at = stop
    return at, tactics, others


def rattle_item(words, at, owner, found):
    """Adds what the item at `at` names, and gives where the next one begins."""
    if words[at:at + 3] == ['#', '!', '[']:
        stop = close_of(words, at + 2) + 1
        found.append(Name('', 'tactics', False, '', '', ' '.join(words[at:stop])))
        return stop
    at, tactics, before = attributes_at(words, at)
    start, public = at, words[at] == 'pub' and words[at + 1] != '('
    at = word_of(words, at)
    if words[at] == 'use' or words[at:at + 2] == ['ghost', 'use']:
        return first_of(words, at, (';',)) + 1
    if words[at] in ('mod', 'impl', 'trait'):
        return rattle_inner(words, at, owner, found)
    kind, body, stop = extent_of(words, at)
    found.append(Name(owner + words[at + 1], kind, public, ' '.join(before + words[start:body]), ' '.join(words[body:stop]), ' '.join(tactics)))
    return stop


def word_of(words, at):
    """The word that says what an item is, behind `pub` and the like."""
    while words[at] in ('pub', 'unsafe', 'extern', '(') or words[at][0] == '"' or words[at:at + 2] == ['const', 'fn']:
        at = close_of(words, at) + 1
    return at


def rattle_inner(words, at, owner, found):
    """The items between the braces of a module, an `impl` or a trait, if it has any."""
    body = first_of(words, at, ('{', ';'))
    stop = close_of(words, body)
    if words[body] == '{':
        name = words[at + 1] if words[at] != 'impl' else owner_in(words[past_parameters(words, at + 1):body])
        rattle_block(words, body + 1, stop, f'{owner}{name}::', found)
    return stop + 1


def extent_of(words, at):
    """Of a declaration its kind, where what it says ends, and where it ends itself."""
    if words[at] == 'fn':
        body = body_of(words, at)
        return 'fn', body, close_of(words, body) + 1
    if words[at] in ('struct', 'enum'):
        stop = first_of(words, at, ('{', '(', ';'))
        stop = first_of(words, stop, (';',)) if words[stop] == '(' else close_of(words, stop)
    elif words[at] in ('const', 'static', 'type', 'ghost'):
        stop = first_of(words, at, (';',))
    else:
        raise Unread(' '.join(words[at:at + 12]))
    return 'type', stop + 1, stop + 1


def owner_in(head):
    """The type of an `impl`, with its trait's name behind it where it has one."""
    def last(path):
        return [word for word in path[:path.index('<') if '<' in path else None] if word.isidentifier()][-1]

    if 'for' not in head:
        return last(head)
    at = head.index('for')
    return last(head[at + 1:]) + last(head[:at])


def body_of(words, at):
    """The index of the brace that opens the body of the function at `at`, behind its clauses; of the semicolon where it has no body."""
    i, clause = close_of(words, past_parameters(words, at + 2)) + 1, False
    while words[i] != ';':
        if words[i] in ('requires', 'ensures', 'ghost'):
            clause = True
        elif words[i] == '{':
            if not clause:
                return i
            clause = False
            i = close_of(words, i)
        elif words[i] in ('(', '['):
            i = close_of(words, i)
        i += 1
    return i

"""The readings of a text that has several, in prefix form: from proofs that `mw` writes for changes of the text."""
import re

from .findings import Finding, shown
from .terms import READ, Terms, parts_of, text_in
from .texts import File, spelled

MOST_SPANS, MOST_KINDS = 400, 12
NUMBERS = re.compile(r"(?<![^\s(,])\d+@")
FROM = "from "


def prefix_of(answer):
    """The numbered prefix form of the term with which a proof begins."""
    return next((line[len(FROM):] for line in answer.proof if line.startswith(FROM)), None)


def without_numbers(form):
    return NUMBERS.sub("", form)


def spans_of(count):
    """Parts of a text of so many tokens that may get parentheses, long ones first."""
    spans = [(first, last) for first in range(count) for last in range(first + 1, count + 1) if last - first < count]
    return sorted(spans, key=lambda span: span[0] - span[1])[:MOST_SPANS]


def with_parentheses(words, span):
    first, last = span
    return [*words[:first], "(", *words[first:last], ")", *words[last:]]


def readings_of(terms, words):
    """Numbered prefix forms of the text's readings, each with the words that have this reading alone."""
    texts = [with_parentheses(words, span) for span in spans_of(len(words))]
    alone = [text for text, answer in zip(texts, terms.answers(texts)) if answer.refusal is None]
    found, commands = {}, [terms.command(text, "reduce") for text in alone]
    for text, answer in zip(alone, terms.asker.reductions(terms.base, commands)):
        form = prefix_of(answer)
        if form:
            found.setdefault(form, text)
    return found


def constants_module(terms):
    """A module over that of a text, which has a constant of each kind; with a sort of each of these kinds."""
    sorts = list(dict.fromkeys(terms.scope.kinds.values()))[:MOST_KINDS]
    lines = "".join(f"op asked-{at} : -> {sort} . " for at, sort in enumerate(sorts))
    return f"fmod asking is pr {terms.name} . {lines}endfm\n", sorts


def read_in(terms, module, texts):
    commands = [f"parse in asking : {spelled(text)} ." for text in texts]
    answers = terms.asker.commands(terms.base + module, commands)
    return [(answer.refusal or (0, None))[1] in READ for answer in answers]


def kinds_of(terms, words):
    """A sort of each kind of which the text spells a term: it is read as a branch beside a constant of the kind."""
    module, sorts = constants_module(terms)
    texts = [["if", "true", "then", *words, "else", f"asked-{at}", "fi"] for at in range(len(sorts))]
    return [sort for sort, is_read in zip(sorts, read_in(terms, module, texts)) if is_read]


def kinds_of_constants(terms, words):
    """The first token with several kinds of which each may be meant there, and a sort of each of these kinds."""
    module, sorts = constants_module(terms)
    for at, word in enumerate(words):
        if len({declared.value for declared in terms.scope.named(word) if not declared.arguments}) > 1:
            texts = [[*words[:at], f"asked-{number}", *words[at + 1:]] for number in range(len(sorts))]
            found = [sort for sort, is_read in zip(sorts, read_in(terms, module, texts)) if is_read]
            if len(found) > 1:
                return at, found
    return None, []


def ambiguous(fault):
    """Two readings of a text, in prefix form."""
    terms = Terms(fault, as_constants=True)
    parts = [part for part, _ in parts_of(fault.tokens)] if fault.unit.is_module else sides_of(fault)
    for part in parts:
        words = [token.text for token in part]
        if words and (terms.answers([words])[0].refusal or (0, None))[1] == "ambiguous":
            return of_part(terms, part, words)
    for token in (token for part in parts for token in part):
        if token.text in terms.scope.variables and terms.scope.named(token.text):
            finding = Finding(token, [f"`{token.text}` is a variable, and an operator too"])
            return finding.mend("a variable with an operator's name")
    return Finding(None, ["each text has one reading by itself, but together they have several"])


def sides_of(fault):
    tokens = text_in(fault.tokens)
    at = next((at for at, token in enumerate(tokens) if token.text == "<=?"), len(tokens))
    return [tokens[:at], tokens[at + 1:]]


def of_part(terms, part, words):
    """The finding for one text: its first token whose place in the readings differs, and the readings."""
    found = readings_of(terms, words)
    finding = Finding(part[0])
    forms = dict.fromkeys(map(without_numbers, found))
    if len(forms) > 1:
        both = list(forms)[:2]
        finding.notes += [f"one reading is   {both[0]}", f"another one is   {both[1]}"]
        good = [text for form, text in found.items() if without_numbers(form) in both]
        finding.tried += [f"`{shown(text, 40)}`" for text in good[:2]]
        finding.token = operator_between(part, good[0])
        return finding
    return of_kinds(terms, part, words, finding)


def of_kinds(terms, part, words, finding):
    """The finding where a text, or a constant in it, has several kinds."""
    at, sorts = kinds_of_constants(terms, words)
    if at is None:
        at, sorts = 0, kinds_of(terms, words)
    if len(sorts) > 1:
        finding.token = part[at]
        text = words[at] if len(words) == 1 or at else shown(part)
        finding.notes += [f"one reading has `{text}` in the kind [{sorts[0]}]", f"another one in the kind [{sorts[1]}]"]
        finding.mend("one name in several kinds")
    return finding


def operator_between(part, text):
    """The token at which parentheses end or begin: there the readings part."""
    texts = [token.text for token in part]
    at = next((at for at, (one, other) in enumerate(zip(texts, text)) if one != other), 0)
    return part[at] if at else part[min(closing_of(text), len(part) - 1)]


def closing_of(text):
    """The number of tokens within the first parentheses of a text."""
    depth = 0
    for at, word in enumerate(text):
        depth += {"(": 1, ")": -1}.get(word, 0)
        if depth == 0:
            return at - 1
    return 0


def of_result(asker, base, module, text, scope):
    """The numbered prefix forms of readings of a printed term that has several."""
    found = Terms.__new__(Terms)
    found.asker, found.base, found.name, found.scope = asker, base, module, scope
    words = split_words(text)
    return readings_of(found, words) if len(words) < 400 else {}


def split_words(text):
    return [token.text for token in File("", text.encode("latin-1")).tokens]


def is_ambiguous(answer):
    return (answer.refusal or (0, None))[1] == "ambiguous"


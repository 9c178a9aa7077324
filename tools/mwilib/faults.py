"""What is shown for each kind of refusal: the token, notes, and mendings."""
import os

from . import forms, names, objects, pages, readings, terms
from .asking import LAST_STAGE, STAGES, Copy, Unsure, base_of, is_better
from .findings import Finding, shown
from .sources import ENDS, IMPORTS, SUBSORTS
from .terms import Terms, parts_of, text_in


def first_with(tokens, text, start=0):
    return next((token for token in tokens[start:] if token.text == text), None)


def scope_of(fault):
    return names.scope_of(fault.unit, fault.accepted)


def of_form(fault):
    if not fault.unit.is_module:
        return forms.of_unit(fault)
    return forms.of_head(fault) if fault.is_at_head else forms.of_statement(fault)


def already_defined(fault):
    token = first_with(fault.tokens, fault.detail, 1)
    finding = Finding(token)
    if fault.is_at_head:
        before = next((unit for unit in fault.accepted if unit.name == fault.detail), None)
        finding.also += [(before.tokens[1], "it is defined here")] if before else []
        finding.notes += [] if before else [f"{fault.detail} is a module of the prelude"]
        return finding
    for statement in fault.unit.statements[:fault.number]:
        words = [other.text for other in statement]
        if words[0] in ("var", "vars") and fault.detail in words[1:words.index(":") if ":" in words else 1]:
            finding.also.append((first_with(statement, fault.detail, 1), "it is declared here"))
            return finding
    return finding


def unknown_module(fault):
    at = 1 if fault.unit.is_module else 2
    finding = Finding(first_with(fault.tokens, fault.detail, at))
    known = [*(unit.name for unit in fault.accepted), *pages.prelude()]
    finding.near = names.near(fault.detail, known)
    refused = fault.refused.get(fault.detail)
    if refused:
        finding.also.append((refused, "it was refused here"))
    elif finding.near and not fault.unit.is_module:
        words = [token.text for token in fault.unit.tokens]
        words[words.index("in") + 1] = finding.near[0]
        answer = fault.asker.commands("".join(unit.text for unit in fault.accepted), [" ".join(words)])[0]
        finding.tried += [f"`{finding.near[0]}` in place of `{fault.detail}`"] if answer.refusal is None else []
    return with_copies(fault, finding, finding.near if fault.unit.is_module else [])


def circular_import(fault):
    return Finding(first_with(fault.tokens, fault.detail, 1))


def unknown_sort(fault):
    """A sort that isn't declared: one that is near, or of a module of the prelude."""
    words = [token.text for token in fault.tokens]
    start = words.index(":") + 1 if ":" in words else 1
    finding = Finding(first_with(fault.tokens, fault.detail, start) or first_with(fault.tokens, fault.detail, 1))
    finding.near = names.near(fault.detail, scope_of(fault).sorts)
    if finding.near:
        finding.mend("a misspelt name")
        return with_copies(fault, finding, finding.near)
    for name, unit in pages.prelude().items():
        if fault.detail in names.scope_of(unit, []).sorts and name != "BOOL":
            finding.notes.append(f"`{fault.detail}` is a sort of the prelude's {name}")
            finding.mend("a module that isn't imported")
            return with_statement(fault, finding, ["protecting", name, "."])
    return with_statement(fault, finding, ["sort", fault.detail, "."])


def with_copies(fault, finding, others):
    """Says which of these words in the place of the detail mend the statement."""
    copy = Copy.of(fault.unit, fault.number) if others else None
    copies = []
    for other in others:
        copies.append(copy.with_lines([(at, [other if word == fault.detail and at == fault.number else word
                                             for word in words]) for at, words in copy.lines]))
    told = fault.asker.copies(base_of(fault.unit, fault.accepted), copies) if copies else []
    finding.tried += [f"`{other}` in place of `{fault.detail}`" for other, found in zip(others, told)
                      if is_better(found, fault.told)]
    return finding


def with_statement(fault, finding, words):
    """Says whether a statement more mends the module."""
    copy = Copy.of(fault.unit)
    changed = copy.with_lines([(-1, words), *copy.lines])
    told = fault.asker.copies(base_of(fault.unit, fault.accepted), [changed])[0]
    if is_better(told, fault.told):
        finding.tried.append(f"`{' '.join(words)}` in {fault.unit.name}")
    return finding


def without_each(fault, places):
    """Of these statements of a module, or words of them, those without which the fault isn't told. A place is the
    statement's number, and for words where they begin and end."""
    copy, copies = Copy.of(fault.unit), []
    for number, first, last in places:
        lines = [(other, words) for other, words in copy.lines if other != number]
        if first is not None:
            lines = [(other, [*words[:first], "ctor", *words[last:]] if other == number else words)
                     for other, words in copy.lines]
        copies.append(copy.with_lines(lines))
    told = fault.asker.copies(base_of(fault.unit, fault.accepted), copies) if copies else []
    stage = STAGES[fault.kind]
    return [place for place, found in zip(places, told)
            if found is None or STAGES.get(found[1], LAST_STAGE) >= stage and found[1:] != (fault.kind, fault.detail)]


def sort_cycle(fault):
    """The `subsort` statements without one of which the cycle isn't there."""
    numbers = [(at, None, None) for at, words in enumerate(fault.unit.statements) if words[0].text in SUBSORTS]
    cutting = without_each(fault, numbers)
    if not cutting:
        return of_what_joins(fault)
    statement = fault.unit.statements[cutting[-1][0]]
    finding = Finding(first_with(statement, "<"), ["the cycle isn't there without this statement"])
    finding.also += [(fault.unit.statements[at][0], "or without this one") for at, _, _ in cutting[:-1]]
    return finding


def of_operator(fault):
    """A fault of an operator's declarations: the one, or the attribute, without which it isn't told."""
    spelling = fault.detail.split(" ")[0] if fault.detail else ""
    found = []
    for at, words in enumerate(fault.unit.statements):
        scope = names.Scope()
        scope.add_statement(words, False)
        found += [at] if any(declared.spelling == spelling for declared in scope.operators) else []
    places = [place for at in reversed(found) for place in attribute_places(fault.unit.statements[at], at)]
    places += [(at, None, None) for at in reversed(found)]
    mending = without_each(fault, places)
    if not mending:
        return of_what_joins(fault)
    return at_place(fault, mending[0], found)


def of_what_joins(fault):
    """A fault of several modules, or of sorts that are joined: the `subsort` statement, or the import, without which it
    isn't told."""
    words = (*IMPORTS, *SUBSORTS)
    places = [(at, None, None) for at, statement in enumerate(fault.unit.statements) if statement[0].text in words]
    mending = without_each(fault, places)
    if not mending:
        return Finding()
    statement = fault.unit.statements[mending[-1][0]]
    finding = Finding(statement[min(1, len(statement) - 1)], ["without this statement `mw` doesn't refuse this"])
    finding.also += [(fault.unit.statements[at][0], "or without this one") for at, _, _ in mending[:-1]]
    rows = pages.refusals()[fault.kind]
    finding.mends += [rows[-1][1]] if len(rows) > 1 else []
    return finding


def attribute_places(statement, number):
    """The places of attributes that say something, frozen arguments first."""
    for at, token in sorted(enumerate(statement), key=lambda place: place[1].text != "frozen"):
        if token.text in ("assoc", "comm") or token.text == "frozen" and statement[at + 1].text != "(":
            yield number, at, at + 1
        elif token.text in ("id:", "prec"):
            yield number, at, at + 2
        elif token.text in ("gather", "frozen"):
            yield number, at, next((last for last in range(at, len(statement)) if statement[last].text == ")"), at) + 1


def at_place(fault, place, declared):
    number, first, last = place
    statement = fault.unit.statements[number]
    what = f"`{shown(statement[first:last])}`" if first is not None else "this declaration"
    finding = Finding(statement[1 if first is None else first], [f"without {what} `mw` doesn't refuse this"])
    if first is not None and statement[first].text == "frozen":
        finding.mend("frozen arguments")
    others = [fault.unit.statements[other][1] for other in declared if other != number]
    finding.also += [(token, "it is declared here too") for token in others]
    return finding


def unended_module(fault):
    """A module without its end: at the wrong end, or where another module begins."""
    end = ENDS[fault.unit.word]
    for statement in fault.unit.statements:
        for token in statement:
            if token.text in ENDS.values() and (token is statement[0] or token.is_first_of_line):
                finding = Finding(token, [f"a module that begins with `{fault.unit.word}` ends with `{end}`"])
                finding.edits.append(f"`{end}` in place of `{token.text}`")
                return finding.mend("a wrong end")
            if token.text not in names.STATEMENTS and names.near(token.text, [end]) and token.is_first_of_line:
                finding = Finding(token, near=[end]).mend("a misspelt word")
                finding.edits.append(f"`{end}` in place of `{token.text}`")
                return finding
    return at_next_unit(fault, end)


def at_next_unit(fault, end):
    """Where the next unit begins inside a module that has no end."""
    for token in fault.unit.tokens[3:]:
        if token.is_first_of_line and token.text in (*ENDS, *names.COMMANDS):
            finding = Finding(token, [f"`{token.text}` stands inside the module `{fault.unit.name}`"])
            finding.also.append((fault.unit.first, "it begins here"))
            finding.edits.append(f"`{end}` in front of `{token.text}`")
            return finding.mend("a missing end")
    finding = Finding(fault.unit.tokens[-1], [f"the text ends here, and the module began with `{fault.unit.word}`"])
    finding.edits.append(f"`{end}` at the end")
    return finding.mend("a missing end")


def unended_command(fault):
    last = fault.unit.tokens[-1]
    if fault.unit.word in ENDS.values():
        return Finding(fault.unit.first, ["no module is open here"]).mend("an end without a beginning")
    if last.text.endswith(".") and len(last.text) > 1:
        finding = Finding(last, [f"`{last.text}` is one token: it ends nothing"])
        finding.edits.append(f"`{last.text[:-1]} .`")
        return finding.mend("a full stop without a blank in front of it")
    finding = Finding(last, ["the text ends here, without a full stop"])
    return finding.mend("a missing full stop")


def lone_variable(fault):
    parts = parts_of(fault.tokens)
    return Finding(parts[0][0][0] if parts and parts[0][0] else None)


def unbound_variable(fault):
    """The variable where it isn't bound, and variables of the left side that are near."""
    parts = parts_of(fault.tokens)
    left = [token.text for token in parts[0][0]]
    name = fault.detail
    for part, _ in parts[1:]:
        token = first_with(part, name) or next((token for token in part if token.text.split(":")[0] == name), None)
        if token:
            variables = [word for word in scope_of(fault).variables if word in left]
            finding = Finding(token, near=names.near(name, variables) or variables[:names.MOST_NEAR])
            finding.notes.append(f"`{name}` isn't in the left side")
            return with_variables(fault, finding, token)
    return Finding()


def with_variables(fault, finding, token):
    """Says which variable of the left side mends the statement."""
    copy = Copy.of(fault.unit, fault.number)
    place = next(at for at, other in enumerate(fault.tokens) if other is token)
    copies = [copy.with_lines([(at, [*words[:place], name, *words[place + 1:]] if at == fault.number else words)
                               for at, words in copy.lines]) for name in finding.near]
    told = fault.asker.copies(base_of(fault.unit, fault.accepted), copies) if copies else []
    finding.tried += [f"`{name}` in place of `{token.text}`" for name, found in zip(finding.near, told)
                      if is_better(found, fault.told)][:1]
    return finding


def bad_object(fault):
    """The object of a rule that can't be completed: where an attribute, a name or another class comes again."""
    sides = [objects.written(part) for part, _ in parts_of(fault.tokens)[:2]]
    again = objects.named_twice(sides) or objects.repetition(sides)
    if again:
        finding = Finding(again.token, [f"`{again.text}` stands here for the second time"])
        finding.also.append((again.first, "it stands here too"))
        return without_tokens(fault, finding.mend(again.mistake), again.span)
    changed = objects.other_class(sides)
    if changed is None:
        return Finding()
    finding = Finding(changed.token, [f"`{changed.text}` is of the class {changed.first.text} on the left"])
    finding.also.append((changed.first, "there it has this class"))
    finding.near = [changed.first.text]
    return with_token(fault, finding.mend("an object of another class"), changed.token, changed.first.text)


def with_token(fault, finding, token, text):
    """Says whether another word in the place of a token mends the statement."""
    if is_mended(fault, [text if other is token else other.text for other in fault.tokens]):
        finding.tried.append(f"`{text}` in place of `{token.text}`")
    return finding


def without_tokens(fault, finding, span):
    """Says whether the statement is mended without these tokens."""
    if is_mended(fault, [token.text for token in fault.tokens if not any(token is other for other in span)]):
        finding.tried.append(f"without `{shown(span)}`")
    return finding


def is_mended(fault, words):
    """Whether these words in the place of the statement mend its module."""
    copy = Copy.of(fault.unit, fault.number)
    changed = copy.with_lines([(at, words if at == fault.number else line) for at, line in copy.lines])
    return is_better(fault.asker.copies(base_of(fault.unit, fault.accepted), [changed])[0], fault.told)


def open_term(fault):
    """The first token that `mw` takes for a variable."""
    asked = Terms(fault)
    tokens = text_in(fault.tokens)
    if fault.unit.word in ("match", "xmatch"):
        tokens = names.divided(tokens, "<=?")[2]
    alone = [token for token in tokens if token.text not in "()[]{},"]
    for token, answer in zip(alone, asked.answers([[token.text] for token in alone])):
        if answer.refusal and answer.refusal[1] == "open term":
            finding = Finding(token, [f"`{token.text}` is a variable"])
            declared = asked.scope.operators
            constants = [other.spelling for other in declared if not other.arguments and other.statement[0].file.path]
            finding.near = names.near(token.text, constants)
            return finding
    return Finding()


def bad_bound(fault):
    return Finding(fault.tokens[1] if len(fault.tokens) > 1 else None)


def no_module(fault):
    finding = Finding(fault.unit.first)
    finding.also += [(token, f"the module {name} was refused here") for name, token in fault.refused.items()][-1:]
    return finding


def number_too_large(fault):
    return Finding(next((token for token in fault.tokens if token.text.isdigit() and len(token.text) > 38), None))


def whole_place(fault):
    """No token: a text as a whole."""
    tokens = text_in(fault.tokens) if not fault.unit.is_module else fault.tokens
    return Finding(tokens[0] if tokens else None)


FINDERS = {
    "not in this profile": of_form, "bad statement": of_form, "already defined": already_defined,
    "unknown module": unknown_module, "circular import": circular_import, "unknown sort": unknown_sort,
    "sort cycle": sort_cycle, "bad axioms": of_operator, "attributes disagree": of_operator,
    "not preregular": of_operator, "not associative": of_operator, "low identity": of_operator,
    "no parse": terms.no_parse, "ambiguous": readings.ambiguous, "unended module": unended_module,
    "unended command": unended_command, "lone variable": lone_variable, "unbound variable": unbound_variable,
    "bad object": bad_object, "open term": open_term, "bad bound": bad_bound, "no module": no_module,
    "number too large": number_too_large, "term too long": whole_place, "too deep": whole_place}


def finding_of(fault):
    """What is shown for a refusal; nothing of the token where it wasn't found in time."""
    try:
        return FINDERS.get(fault.kind, lambda fault: Finding())(fault)
    except Unsure:
        return Finding()
    except Exception:                                   # a place is told all the same; tests want to see this
        if os.environ.get("MWI_DEBUG"):
            raise
        return Finding()

"""Shows the numbers of operators and statements, and the steps of a proof as terms."""
from .asking import Asker, Unsure, base_of, text_of
from .checking import checkers, flat_module
from .findings import shown
from .names import reached, scope_of
from .program import Lines, printed

MOST_STEPS = 200
SECONDS = 10.0
STATEMENTS = ("eq", "ceq", "cq", "rl", "crl")


def statements_of(unit, units):
    """All equations and rules of a module with its imports, in the order of their numbers."""
    return [words for other in reached(unit, units) for words in other.statements if words[0].text in STATEMENTS]


def shown_statement(words):
    token = words[0]
    place = f"({token.file.name}:{token.line})" if token.file.name != "the prelude" else "(prelude)"
    return f"{shown(words, len(words))}   {place}"


def numbers(unit, units):
    """Lines with the operators and statements of a module, each with its number."""
    module, flat = flat_module(text_of(unit, units), unit.name)
    records = [line.split() for line in flat.splitlines()]
    sorts = {words[1]: words[2] for words in records if words[0] == "sort"}
    tops = scope_of(unit, units).kinds
    yield "operators"
    number = spelling = kinds = None
    for words in records:
        if words[0] == "op":
            number, spelling, kinds = words[1], words[2], words[3:]
        elif words[0] == "declared":
            names = [word if word == "->" else f"[{tops[sorts[kind]]}]" if word == "0" else sorts[word]
                     for word, kind in zip(words[1:], kinds)]
            yield f"{number:>6}  op {spelling} : {' '.join(names)}"
    yield "statements"
    written = statements_of(unit, units)
    for at, (number, statement) in enumerate(module.statements.items()):
        text = shown_statement(written[at]) if len(written) == len(module.statements) else statement.word
        yield f"{number:>6}  {text}"


def form_of(module, term):
    """A canonical term in prefix form."""
    if term.width == 0:
        return str(term.head) if term.rank != 2 else module.operators[term.head].spelling
    inner = ", ".join(form_of(module, argument) for argument in term.arguments)
    return f"{module.operators[term.head].spelling} ({inner} )"


class Steps:
    """The steps of a proof text over a flattened module, carried out by the second checker's means."""

    def __init__(self, module, proof):
        _, second = checkers()
        self.module, checker = module, second.Checker(module)
        start, self.steps, _ = second.Reader(module, second.tokens_of(proof)).text()
        self.terms = [start]
        for step in self.steps[:MOST_STEPS]:
            self.terms.append(checker.after(self.terms[-1], step))

    def forms(self):
        """The forms of all terms that are shown: of the whole, then of the values of each step."""
        values = [value for step in self.steps[:MOST_STEPS] for value in step.values]
        return [form_of(self.module, term) for term in [*self.terms, *values]]


def mixfix(program, base, name, forms):
    """What `mw` prints for prefix forms; those that it doesn't read as one term stay as they are."""
    commands = [f"parse in {name} : {form} ." for form in forms]
    try:
        answers = Asker(program, SECONDS).commands(base, commands)
    except Unsure:
        return forms
    return [answer.lines[0].split(" : ", 1)[1].removesuffix(" .") if answer.refusal is None else form
            for form, answer in zip(forms, answers)]


def proof_of(program, words, base, command):
    """The block and the proof text of a command."""
    text, _ = printed([program, "run", "--proof", *words], base + command)
    lines = Lines(True)
    return [answer for line in text.split("\n")[:-1] if (answer := lines.added(line))]


def where(step):
    path = " ".join(map(str, step.path)) or "the top"
    return f"at {path}" + (f", arguments {' '.join(map(str, step.take))}" if step.take else "")


def shown_proof(program, unit, units, proof):
    """Lines for a proof text: each step by its statement, its place and its values, and the term that it leaves."""
    module, _ = flat_module(text_of(unit, units), unit.name)
    steps = Steps(module, "\n".join(proof))
    texts = mixfix(program, base_of(unit, units, True), unit.name, steps.forms())
    terms, values = texts[:len(steps.terms)], iter(texts[len(steps.terms):])
    written = statements_of(unit, units)
    yield f"from  {terms[0]}"
    for step, term in zip(steps.steps, terms[1:]):
        names = [token.split(":", 1)[1] for token in module.statements[step.number].variables] if step.number else []
        given = ", ".join(f"{name} = {next(values)}" for name in names)
        what = shown_statement(written[step.number - 1]) if step.number else "computed"
        yield f"{step.number or 'built':>5}  {what}"
        yield f"       {where(step)}{f', with {given}' if given else ''}"
        yield f"   -> {term}"
    if len(steps.steps) > MOST_STEPS:
        yield f"       .. {len(steps.steps) - MOST_STEPS} more steps"

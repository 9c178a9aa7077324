"""Modules with rules, and terms of three sizes to be rewritten there, for bench/run.

In each of them the result is the same whichever rule, solution or part is taken first, and so is the number of
rewrites."""

# The token goes round once; each node is marked.
RING = """
  pr NAT .
  sorts Node Ring .
  subsort Node < Ring .
  op none : -> Ring .
  op __ : Ring Ring -> Ring [assoc comm id: none] .
  ops node seen : Nat Nat -> Node .
  op token : Nat -> Node .
  op ring : Nat Nat -> Ring .
  vars I J N : Nat .
  eq ring(0, N) = none .
  eq ring(s I, N) = node(I, s I rem N) ring(I, N) .
  rl [pass] : token(I) node(I, J) => token(J) seen(I, J) ."""

# Each philosopher eats once; N forks on a round table.
PHILOSOPHERS = """
  pr NAT .
  sorts Thing Table .
  subsort Thing < Table .
  op none : -> Table .
  op __ : Table Table -> Table [assoc comm id: none] .
  op fork : Nat -> Thing .
  ops hungry eating full : Nat Nat -> Thing .
  op table : Nat Nat -> Table .
  vars I N L R : Nat .
  eq table(0, N) = none .
  eq table(s I, N) = fork(I) hungry(I, s I rem N) table(I, N) .
  rl [done] : eating(L, R) => full(L, R) fork(L) fork(R) .
  rl [take] : hungry(L, R) fork(L) fork(R) => eating(L, R) ."""

# Each account sends once, at most 9 of its 100, to the next one, and gets something from outside.
BANK = """
  pr NAT .
  sorts Account Message Bank .
  subsorts Account Message < Bank .
  op none : -> Bank .
  op __ : Bank Bank -> Bank [assoc comm id: none] .
  op <_has_> : Nat Nat -> Account .
  op credit : Nat Nat -> Message .
  op move : Nat Nat Nat -> Message .
  op accounts : Nat -> Bank .
  op messages : Nat Nat -> Bank .
  vars I J K N B D : Nat .
  eq accounts(0) = none .
  eq accounts(s I) = < I has 100 > accounts(I) .
  eq messages(0, N) = none .
  eq messages(s I, N) = credit(I, I) move(I, s I rem N, s (I rem 9)) messages(I, N) .
  rl [credit] : credit(I, N) < I has B > => < I has B + N > .
  crl [move] : move(I, J, K) < I has B > < J has D > => < I has sd(B, K) > < J has D + K > if K <= B ."""

COUNTER = """
  pr NAT .
  sort Counter .
  op c : Nat Nat -> Counter .
  vars M N : Nat .
  rl [tick] : c(s M, N) => c(M, N + 1) ."""

# The condition is asked at each step.
CONDITIONAL = """
  pr NAT .
  sort Counter .
  op c : Nat Nat -> Counter .
  vars M N : Nat .
  crl [tick] : c(M, N) => c(M, N + 1) if N < M ."""

# Each swap takes one inversion away: 3 n n + n of them in n blocks.
BUBBLES = """
  pr NAT .
  sorts Letter Word .
  subsort Letter < Word .
  ops a b c d : -> Letter .
  op nil : -> Word .
  op __ : Word Word -> Word [assoc id: nil] .
  op blocks : Nat -> Word .
  var N : Nat .
  eq blocks(0) = nil .
  eq blocks(s N) = d b a c blocks(N) .
  rl b a => a b .
  rl c a => a c .
  rl d a => a d .
  rl c b => b c .
  rl d b => b d .
  rl d c => c d ."""

# The greatest number goes round a ring of scattered numbers. How often a message is passed doesn't hang on the order.
ELECTION = """
  pr NAT .
  sorts Part Ring .
  subsort Part < Ring .
  op none : -> Ring .
  op __ : Ring Ring -> Ring [assoc comm id: none] .
  ops start node to : Nat Nat -> Part .
  op leader : Nat -> Part .
  op ring : Nat Nat -> Ring .
  vars I J K N : Nat .
  eq ring(0, N) = none .
  eq ring(s I, N) = start((I * 7) rem N, (s I * 7) rem N) ring(I, N) .
  rl [start] : start(I, J) => node(I, J) to(J, I) .
  crl [pass] : to(I, K) node(I, J) => node(I, J) to(J, K) if I < K .
  crl [drop] : to(I, K) node(I, J) => node(I, J) if K < I .
  rl [win] : to(I, I) node(I, J) => leader(I) ."""

# One leaf after the other of a tree: the places are deep, and the whole is looked through each time.
TREE = """
  pr NAT .
  sort Tree .
  ops leaf done : Nat -> Tree .
  op node : Tree Tree -> Tree .
  op tree : Nat Nat -> Tree .
  vars N K : Nat .
  eq tree(0, K) = leaf(K) .
  eq tree(s N, K) = node(tree(N, 2 * K), tree(N, 2 * K + 1)) .
  rl leaf(K) => done(K) ."""

# An imperative language by rules on a state of programs and cells.
LANGUAGE = """
  pr NAT .
  pr QID .
  sorts Exp Test Prog Progs Cell Cells State .
  subsorts Nat Qid < Exp .
  subsort Prog < Progs .
  subsort Cell < Cells .
  ops _plus_ _minus_ : Exp Exp -> Exp [prec 33 gather (E e)] .
  op _less_ : Exp Exp -> Test [prec 37] .
  op skip : -> Prog .
  op _<-_ : Qid Exp -> Prog [prec 50] .
  op while_do_od : Test Prog -> Prog .
  op _;_ : Prog Prog -> Prog [assoc id: skip prec 60] .
  op _|_ : Progs Progs -> Progs [assoc comm id: skip prec 70] .
  op nothing : -> Cells .
  op __ : Cells Cells -> Cells [assoc comm id: nothing prec 45] .
  op _is_ : Qid Nat -> Cell [prec 40] .
  op {_,_} : Progs Cells -> State .
  op val : Exp Cells ~> Nat .
  op holds : Test Cells ~> Bool .
  vars E F : Exp .
  vars M N : Nat .
  var X : Qid .
  var S : Cells .
  vars P Q : Prog .
  var T : Test .
  var U : Progs .
  eq val(N, S) = N .
  eq val(X, (X is N) S) = N .
  eq val(E plus F, S) = val(E, S) + val(F, S) .
  eq val(E minus F, S) = sd(val(E, S), val(F, S)) .
  eq holds(E less F, S) = val(E, S) < val(F, S) .
  crl [assign] : { X <- E ; P | U, (X is M) S } => { P | U, (X is N) S } if N := val(E, (X is M) S) .
  crl [again] : { while T do Q od ; P | U, S } => { Q ; while T do Q od ; P | U, S } if holds(T, S) .
  crl [enough] : { while T do Q od ; P | U, S } => { P | U, S } if holds(T, S) = false ."""

# A machine with a tape, which writes binary numbers one after the other.
TURING = """
  pr NAT .
  sorts Symbol State Tape Machine .
  subsort Symbol < Tape .
  ops o i : -> Symbol .
  ops inc back : -> State .
  op nil : -> Tape .
  op __ : Tape Tape -> Tape [assoc id: nil] .
  op m : Nat Tape State Tape -> Machine .
  var N : Nat .
  vars L R : Tape .
  rl [carry] : m(N, L i, inc, R) => m(N, L, inc, o R) .
  rl [one] : m(N, L o, inc, R) => m(N, L i, back, R) .
  rl [new] : m(N, nil, inc, R) => m(N, i, back, R) .
  rl [right] : m(N, L, back, o R) => m(N, L o, back, R) .
  rl [again] : m(s N, L, back, nil) => m(N, L, inc, nil) ."""


def looped(n):
    return "{while 0 less 'n do 's <- 's plus 'n ; 'n <- 'n minus 1 od | while 0 less 'm do 'm <- 'm minus 1 od, " \
           f"('n is {n}) ('m is {n}) ('s is 0)" + "}"


RULE_CASES = {
    "token ring": [(RING, f"token(0) ring({n}, {n})") for n in (320, 640, 1280)],
    "philosophers": [(PHILOSOPHERS, f"table({n}, {n})") for n in (240, 480, 960)],
    "bank": [(BANK, f"accounts({n}) messages({n}, {n})") for n in (400, 800, 1600)],
    "counter": [(COUNTER, f"c({n}, 0)") for n in (250000, 500000, 1000000)],
    "counter with a condition": [(CONDITIONAL, f"c({n}, 0)") for n in (250000, 500000, 1000000)],
    "bubble sort by rules": [(BUBBLES, f"blocks({n})") for n in (25, 50, 100)],
    "leader election": [(ELECTION, f"ring({n}, {n})") for n in (50, 100, 200)],
    "leaves of a tree": [(TREE, f"tree({n}, 1)") for n in (7, 9, 11)],
    "concurrent language": [(LANGUAGE, looped(n)) for n in (1000, 4000, 16000)],
    "binary numbers on a tape": [(TURING, f"m({n}, nil, inc, nil)") for n in (8000, 32000, 128000)],
}

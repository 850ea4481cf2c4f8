"""Articles of one shape each, of any size n. A shape is a function from n to the text; its first line of comment says what grows."""

FRONT = "environ theorems TARSKI_0; begin\n"


def numbered(n, line):
    return "".join(line.format(k=k, before=k - 1) for k in range(1, n + 1))


def joined(n, piece, sign):
    return sign.join(piece.format(k=k) for k in range(1, n + 1))


def statements(n):
    # statements that need nothing
    return FRONT + "for x being object holds x = x;\n" * n


def theorems(n):
    # theorems with proofs of ten steps, as real ones are
    return FRONT + numbered(n, """theorem Th{k}: for x,y being object st x in y holds ex z being set st x in z & y in z & x in y
proof let x,y be object; assume A: x in y;
 consider z being set such that B: for a being object holds a in z iff a = x or a = y by TARSKI_0:3;
 take z;
 D: x in z by B;
 thus x in z by D; thus y in z by B; thus thesis by A;
end;
""")


def cited_by_number(n):
    # theorems, each of which cites the last one
    return FRONT + "theorem Th0: for x being object holds x = x;\n" + numbered(n, "theorem Th{k}: for x being object holds x = x by Th{before};\n")


def constants_in_chain(n):
    # `set x = ..`, each of the one before
    return FRONT + "now let x0 be object;\n" + numbered(n, "set x{k} = x{before};\n") + f"thus x{n} = x0; end;\n"


def constants_considered(n):
    # `consider`, one after another
    return FRONT + "now let x0 be object;\n" + numbered(n, "consider x{k} being object such that A{k}: x{k} = x0;\n") + "thus x0 = x0; end;\n"


def constants_and_universals(n):
    # a constant and a universal statement by turns
    return FRONT + "now let x0 be object;\n" + numbered(n, "consider x{k} being object such that A{k}: x{k} = x0;\nB{k}: for y being object st y = x{k} holds y = y;\n") + "thus x0 = x0; end;\n"


def premises(n):
    # one step by this many statements, each of a constant of its own
    return FRONT + "now let x be object;\n" + numbered(n, "consider y{k} being object such that A{k}: y{k} = x;\n") + "thus x = x by " + joined(n, "A{k}", ",") + "; end;\n"


def equations(n):
    # one step by a chain of equations
    chained = numbered(n, "consider x{k} being object such that A{k}: x{k} = x{before};\n")
    return FRONT + "now let x0 be object;\n" + chained + f"x{n} = x0 by " + joined(n, "A{k}", ",") + ";\nthus x0 = x0; end;\n"


def reserved_names(n):
    # names reserved one by one, and a statement on the last
    return FRONT + numbered(n, "reserve r{k} for object;\n") + f"r{n} = r{n};\n"


def quantifiers(n):
    # statements with this many variables under one quantifier each
    return FRONT + "for " + joined(n, "x{k} being object holds ", "for ").replace("holds for", "holds for") + "x1 = x1;\n" if n else FRONT


def lets(n):
    # a proof that lets this many variables, one by one
    return FRONT + "now\n" + numbered(n, "let x{k} be object;\n") + "thus x1 = x1; end;\n"


def empty_nows(n):
    # `now end;` under a thesis of 100 conjuncts
    thesis = " & ".join(["x = x"] * 100)
    return FRONT + f"for x being object holds {thesis}\nproof let x be object;\n" + "now end;\n" * n + "thus thesis; end;\n"


def conjunctions(n):
    # statements of 100 conjuncts
    return FRONT + ("for x being object holds " + " & ".join(["x = x"] * 100) + ";\n") * n


def disjuncts(n):
    # a step of eight splits and this many atoms
    return FRONT + "now let x be object;\n" + numbered(n, "consider y{k} being object such that A{k}: x in y{k} or x = x;\nB{k}: x = x;\n") + "assume that " + " and ".join(f"S{k}: x in x or x = x" for k in range(1, 9)) + ";\nthus x = x by " + joined(8, "S{k}", ",") + "," + joined(n, "B{k}", ",") + "; end;\n"


def registrations(n):
    # attributes, each with a registration that each set has it, and 1,000 statements with a type of two of them
    defined = "environ vocabularies SYMBOLS; begin\ndefinition let X be set;\n" + numbered(n, "attr X is v{k} means X = X;\n") + "end;\n"
    registered = "registration\n" + numbered(n, "cluster -> v{k} for set; coherence;\n") + "end;\n"
    return defined + registered + "".join(f"for X being v{k % n + 1} v{(k + 1) % n + 1} set holds X = X;\n" for k in range(1000))


def existentials(n):
    # attributes, each with a registration that some set has it, and 1,000 statements with a type of one of them
    defined = "environ vocabularies SYMBOLS; begin\nconsider Y being set such that Y = Y;\ndefinition let X be set;\n" + numbered(n, "attr X is v{k} means X = X;\n") + "end;\n"
    registered = "registration\n" + numbered(n, "cluster v{k} set; existence proof take Y; thus thesis; end;\n") + "end;\n"
    return defined + registered + "".join(f"for X being v{k % n + 1} set holds X = X;\n" for k in range(1000))


def ancestors(n):
    # ancestors of a structure, each with four fields of its own, and a statement on the structure's aggregate
    fields = joined(4 * n, "u{k}", ", ")
    own = "".join("struct s{k} (# {fields} -> set #);\n".format(k=k, fields=", ".join(f"u{j}" for j in range(4 * k - 3, 4 * k + 1))) for k in range(1, n + 1))
    heir = f"struct ({joined(n, 's{k}', ', ')}) s0 (# {fields} -> set #);\n"
    return f"environ vocabularies SYMBOLS; begin\ndefinition\n{own}{heir}end;\n" + f"for X being set holds the u1 of s0(# {joined(4 * n, 'X', ', ')} #) = X;\n"


def definitions(n):
    # definitions of one block: predicates, attributes, functors and modes by turns
    headings = ("pred p{k} X means X = X;\n", "attr X is v{k} means X = X;\n", "func f{k} X -> set equals X; coherence;\n", "mode m{k} of X -> set means it = it; existence;\n")
    return "environ vocabularies SYMBOLS; begin\ndefinition let X be set;\n" + "".join(headings[k % 4].format(k=k) for k in range(n)) + "end;\n"


def functors(n):
    # functors with proofs of their conditions, each with a theorem that cites it, as real ones are
    return "environ vocabularies SYMBOLS; theorems TARSKI_0; begin\n" + numbered(n, """definition let x,y be object;
 func f{k}(x,y) -> set means
:D{k}: for a being object holds a in it iff a = x or a = y;
 existence by TARSKI_0:3;
 uniqueness
 proof let P,Q be set; assume that
A: for a being object holds a in P iff a = x or a = y and
B: for a being object holds a in Q iff a = x or a = y;
  for a being object holds a in P iff a in Q
  proof let a be object; a in P iff a = x or a = y by A; hence a in P iff a in Q by B; end;
  hence P = Q by TARSKI_0:2;
 end;
end;
theorem for x,y being object holds x in f{k}(x,y) & y in f{k}(x,y)
proof let x,y be object; thus x in f{k}(x,y) by D{k}; thus y in f{k}(x,y) by D{k}; end;
""")


# the vocabulary `symbols.voc` of the shapes that need one
VOCABULARIES = {
    "registrations": lambda n: numbered(n, "Vv{k}\n"),
    "existentials": lambda n: numbered(n, "Vv{k}\n"),
    "definitions": lambda n: "".join(f"{'RVOM'[k % 4]}{'pvfm'[k % 4]}{k}\n" for k in range(n)),
    "functors": lambda n: numbered(n, "Of{k}\n"),
    "ancestors": lambda n: "Gs0\n" + numbered(n, "Gs{k}\n") + numbered(4 * n, "Uu{k}\n"),
}

# the greatest n that the limits of the language allow
MOST = {"quantifiers": 100, "lets": 400, "registrations": 400, "existentials": 400, "ancestors": 50}

SHAPES = {it.__name__: it for it in (
    statements, theorems, cited_by_number, constants_in_chain, constants_considered, constants_and_universals, premises,
    equations, reserved_names, quantifiers, lets, empty_nows, conjunctions, disjuncts, registrations, existentials, ancestors)}

#!/usr/bin/env python3
"""Reads tools/grammar.txt, and writes what follows from it: the grammar by name, the tables of one token ahead, and the lemmas by which the parser's functions begin.

    tools/grammar.py [ROOT]     writes below ROOT, which is the repository if none is given
    tools/grammar.py -v         prints the numbers of symbols, classes and productions
"""
import os
import re
import sys

HERE = os.path.dirname(os.path.abspath(__file__))
MADE = "Made by tools/grammar.py."
COUNTED = ["Item", "Stmt", "Expr", "Unary"]
# classes of tokens that stand in no program
UNUSED = ["DO", "UNUSED", "INCREMENT", "DECREMENT"]
# symbols that take their last right side at each class at which no right side fits, so that the error comes where that one stops; so does each symbol of one right side
EAGER = "Classes Members Optional_formals Items Item After_name Stmt Optional_expr Optional_exprs Unary".split()

# the files of the parser's first steps: their symbols, and what these are
STEPS = {
    "ClassSteps": ("using lines and classes", "Whole_program Usings Using Name_parts Classes Class Optional_public Optional_base Members"),
    "MemberSteps": ("members, headers and parameters", "Member Modifiers Modifier Rest After Headers Header Result Plain Formals Optional_formals More_formals Formal Value_type"),
    "StmtSteps": ("blocks and statements", "Block Items Item After_name Stmt Tail Other Optional_else Optional_expr"),
    "ChainSteps": ("chains of operators", "Expr More_or And More_and Equal More_equal Order More_order Sum More_sum Product More_product"),
    "ExprSteps": ("operands and calls", "Unary Primary Operand_start Optional_actuals Dot Dots Actuals Optional_exprs More_exprs"),
}
STEP_IMPORTS = [
    ("Rattle.std.proofs.Common", "◌≡◌ ℕ suc ◌+◌ ◌<◌ ◌≢◌ List [] ◌∷◌ ◌||◌ refl ap lit< eqb-true"),
    ("Rattle.std.specs.Prelude", "nat_eq"),
    ("Rattle.chord_lexer.specs.declared.token.Kind", "Kind"),
    ("Rattle.chord_tree.specs.Symbol", "Terminal Nonterminal"),
    ("Rattle.chord_tree.specs.Grammar", "productions counted rule_count terminal_count"),
    ("Rattle.chord_tree.specs.Derivation", "next parts_of inside"),
    ("Rattle.chord_tree.specs.Node", "Made"),
    ("Rattle.chord_tree.specs.OneAhead", "choices choice"),
    ("Rattle.chord_tree.proofs.Ahead", "below else_rule"),
    ("Rattle.chord_parser.specs.Runs", "Onward"),
    ("Rattle.chord_parser.proofs.Reading", "begun"),
]


class Grammar:
    """The productions of grammar.txt, with the tables of one token ahead."""

    def __init__(self, path):
        self.printed = {}
        self.heads = []
        sides = []
        above = None
        for line in open(path, encoding="utf-8"):
            line = line.strip()
            if not line or line.startswith("#"):
                continue
            if line.startswith("--"):
                above = line[2:].strip()
                continue
            head, right = (part.strip() for part in line.split("=", 1))
            self.heads.append(head)
            if above:
                self.printed[head] = above
                above = None
            sides += [(head, side.split()) for side in right.split("|")]
        self.symbol = {head: i for i, head in enumerate(self.heads)}
        self.classes = []
        for _, side in sides:
            self.classes += [p for p in dict.fromkeys(side) if p.isupper() and p not in self.classes]
        self.classes += UNUSED
        self.number = {name: i for i, name in enumerate(self.classes)}
        self.end = len(self.classes)
        self.rules = sides
        self.first_and_empty()
        self.follow_sets()
        self.choices()
        self.shortest()
        self.ranks()

    def is_class(self, part):
        return part in self.number

    def empty_part(self, part):
        return part in self.symbol and self.empty[part]

    def under(self, parts, after):
        """The classes at which the parts may begin, where those of after may follow them."""
        found = set()
        for part in parts:
            found |= {self.number[part]} if self.is_class(part) else self.first[part]
            if not self.empty_part(part):
                return found
        return found | after

    def first_and_empty(self):
        self.empty = {head: False for head in self.heads}
        self.first = {head: set() for head in self.heads}
        changed = True
        while changed:
            changed = False
            for head, side in self.rules:
                if all(map(self.empty_part, side)) and not self.empty[head]:
                    self.empty[head] = changed = True
                more = self.under(side, set())
                if not more <= self.first[head]:
                    self.first[head] |= more
                    changed = True

    def follow_sets(self):
        self.follow = {head: set() for head in self.heads}
        self.follow[self.heads[0]] = {self.end}
        changed = True
        while changed:
            changed = False
            for head, side in self.rules:
                for i, part in enumerate(side):
                    if self.is_class(part):
                        continue
                    more = self.under(side[i + 1:], self.follow[head])
                    if not more <= self.follow[part]:
                        self.follow[part] |= more
                        changed = True

    def choices(self):
        """The rule of each symbol at each class: one rule at most fits, but for an `else`, which the nearest `if` takes."""
        none = len(self.rules)
        self.no_else = self.rules.index(("Optional_else", []))
        otherwise = self.number["ELSE"]
        self.choice = {head: [none] * (self.end + 1) for head in self.heads}
        for i, (head, side) in enumerate(self.rules):
            for c in self.under(side, self.follow[head]):
                if i == self.no_else and c == otherwise:
                    continue
                if self.choice[head][c] != none:
                    sys.exit(f"two right sides of {head} fit at {c}")
                self.choice[head][c] = i
        self.default = {}
        for i, (head, side) in enumerate(self.rules):
            if not side:
                self.default.setdefault(head, i)
        for head in self.heads:
            own = self.sides(head)
            if head in EAGER or len(own) == 1:
                self.default[head] = own[-1][0]
        for head, i in self.default.items():
            for c in range(self.end + 1):
                if self.choice[head][c] == none and not (i == self.no_else and c == otherwise):
                    self.choice[head][c] = i

    def shortest(self):
        """A rule of each symbol by which it can be finished, and a bound on the steps to its end."""
        self.weight, self.finish = {}, {}
        while len(self.weight) < len(self.heads):
            for i, (head, side) in enumerate(self.rules):
                if head not in self.weight and all(self.is_class(p) or p in self.weight for p in side):
                    self.weight[head] = 1 + sum(1 if self.is_class(p) else self.weight[p] for p in side)
                    self.finish[head] = i

    def ranks(self):
        """A bound on the productions of each symbol that follow each other before it takes a token or ends. There is one, since no symbol begins with itself."""
        self.rank = {}

        def rank(head):
            if head not in self.rank:
                self.rank[head] = 1 + max(opening(side) for _, side in self.sides(head))
            return self.rank[head]

        def opening(side):
            total = 0
            for part in side:
                if self.is_class(part):
                    return total
                total += rank(part)
                if not self.empty[part]:
                    return total
            return total
        for head in self.heads:
            rank(head)

    def sides(self, head):
        """The right sides of a symbol, each with its number."""
        return [(i, side) for i, (other, side) in enumerate(self.rules) if other == head]

    def rule_name(self, i):
        head, side = self.rules[i]
        return f"{head.lower()}_{side[0].lower() if side else 'none'}"


def listed(items):
    return "".join(f"{x} ∷ " for x in items) + "[]"


def write(root, path, lines):
    path = os.path.join(root, path)
    os.makedirs(os.path.dirname(path), exist_ok=True)
    with open(path, "w", encoding="utf-8") as out:
        out.write("\n".join(lines) + "\n")


def symbols(g):
    o = [f"-- The nonterminals and the terminals of the grammar, by name. {MADE}",
         "use Rattle.chord_tree.specs.Symbol.{Symbol, Terminal, Nonterminal}", ""]
    for i, head in enumerate(g.heads):
        o += [f"abbrev pub {head} : Symbol", f"{head} = Nonterminal {i}", ""]
    for i, name in enumerate(g.classes):
        o += [f"abbrev pub {name} : Symbol", f"{name} = Terminal {i}", ""]
    return o[:-1]


def productions(g):
    o = [f"-- The grammar, a production a line. A nonterminal stands for each repeated or optional part; a capital is a terminal. {MADE}",
         "use Rattle.std.specs.Prelude.{ℕ, List, [], ◌∷◌}",
         "use Rattle.chord_tree.specs.Symbol.{Production, ◌⟶◌, number_of}",
         "use Rattle.chord_tree.specs.Symbols.{" + ", ".join(g.heads + g.classes[:-len(UNUSED)]) + "}", "",
         "unfoldable pub productions : List Production", "productions ="]
    seen = None
    for head, side in g.rules:
        if head != seen and head in g.printed:
            o.append(f"    -- {g.printed[head]}")
        seen = head
        o.append(f"    ({head} ⟶ {listed(side)}) ∷")
    o += ["    []", "",
          "-- the depth of a token counts the nodes of these nonterminals around it",
          "unfoldable pub counted : List ℕ", "counted = " + listed(f"number_of {x}" for x in COUNTED)]
    said = {"rule_count": "how many productions there are", "nonterminal_count": "how many nonterminals there are", "terminal_count": "how many terminals there are",
            "else_terminal": "the terminal of `else`", "no_else": "the place among the productions of `Optional_else ⟶ []`: an `if` without `else`"}
    for name, value in [("rule_count", len(g.rules)), ("nonterminal_count", len(g.heads)), ("terminal_count", g.end), ("else_terminal", "number_of ELSE"), ("no_else", g.no_else)]:
        o += ["", f"-- {said[name]}", f"unfoldable pub {name} : ℕ", f"{name} = {value}"]
    return o


def tables(g):
    o = [f"-- The tables of one token ahead. {MADE}", "use Rattle.std.specs.Prelude.{ℕ, List, [], ◌∷◌, get_or}",
         "use Rattle.chord_tree.specs.Grammar.{rule_count}"]

    def table(name, rows, meaning):
        o.extend(["", f"-- {meaning}", f"unfoldable pub {name} : List (List ℕ)", f"{name} ="])
        o.extend(f"    ({listed(sorted(row) if isinstance(row, set) else row)}) ∷" for row in rows)
        o.append("    []")

    def row(name, values, meaning):
        o.extend(["", f"-- {meaning}", f"unfoldable pub {name} : List ℕ", f"{name} = {listed(values)}"])
    table("firsts", [g.first[h] for h in g.heads], "the terminals that may begin each nonterminal")
    table("follows", [g.follow[h] for h in g.heads], "the terminals that may follow each nonterminal")
    table("choices", [g.choice[h] for h in g.heads], "the production of each nonterminal at each terminal, or the number of productions")
    o.extend(["", "-- the production of nonterminal x at terminal c, or the number of productions where none fits", "unfoldable pub choice : ℕ → ℕ → ℕ",
              "choice x c = get_or (get_or choices x []) c rule_count"])
    row("empties", [i for i, h in enumerate(g.heads) if g.empty[h]], "the nonterminals that may derive nothing")
    row("finishes", [g.finish[h] for h in g.heads], "a production of each nonterminal by which it ends soonest")
    row("weights", [g.weight[h] for h in g.heads], "a bound on the symbols until each nonterminal has ended")
    return o


def used(text, module, names):
    """The import of those names that the text uses, as a line, or none."""
    words = set(re.findall(r"[^\s(){},]+", text))
    names = [name for name in names if name.replace("◌", "") in words]
    return [f"use {module}.{{{', '.join(names)}}}"] if names else []


def begins(g, head):
    """How a symbol begins by each of its productions."""
    o = []
    x = g.symbol[head]
    depth = "d + 1" if head in COUNTED else "d"
    part = lambda p: f"Terminal {g.number[p]}" if g.is_class(p) else f"Nonterminal {g.symbol[p]}"
    for i, side in g.sides(head):
        parts = "".join(part(p) + " ∷ " for p in side) + "[]"
        o += [f"pub {g.rule_name(i)} : {{count d : ℕ}} {{ks : List Kind}} → choice {x} (next ks) ≡ {i} → Onward count (Nonterminal {x}) d ks ({parts}) ({depth}) ks (Made (Nonterminal {x}))",
              "unfolding parts_of inside productions counted rule_count", f"{g.rule_name(i)} e = begun {x} {i} e (lit< tt)", ""]
    return o


def by_table(g, name, x, excluded, value):
    """At each class but the excluded ones the choice of symbol x is the value, by one computation."""
    tests = "".join(f"nat_eq x {b} || (" for b in excluded) + f"nat_eq (choice {x} x) {value}" + ")" * len(excluded)
    proof = f"below {g.end + 1} (λ x. {tests}) refl c l"
    for b in excluded:
        proof = f"else_rule c {b} _ n{b} ({proof})"
    return [f"pub {name} : (c : ℕ) → c < suc terminal_count" + "".join(f" → c ≢ {b}" for b in excluded) + f" → choice {x} c ≡ {value}",
            "unfolding choice choices terminal_count rule_count",
            f"{name} c l" + "".join(f" n{b}" for b in excluded) + f" = eqb-true _ _ ({proof})", ""]


def chosen(g, head):
    """Which production a symbol has at a class, or that it has none."""
    o = []
    x = g.symbol[head]
    others = lambda value: [c for c in range(g.end + 1) if g.choice[head][c] != value]
    for i, _ in g.sides(head):
        if g.default.get(head) == i:
            o += by_table(g, g.rule_name(i) + "_at", x, others(i), i)
            continue
        good = [c for c in range(g.end) if g.choice[head][c] == i]
        for c in good:
            name = g.rule_name(i) + ("_at" if len(good) == 1 else f"_at_{g.classes[c].lower()}")
            o += [f"pub {name} : (c : ℕ) → c ≡ {c} → choice {x} c ≡ {i}", "unfolding choice choices", f"{name} c e = ap (choice {x}) e", ""]
    if head not in g.default:
        o += by_table(g, f"{head.lower()}_stuck", x, others(len(g.rules)), "rule_count")
    return o


def steps(g, meaning, heads):
    """The lemmas by which the parser's functions for these symbols begin."""
    body = [line for lemmas in (begins, chosen) for head in heads for line in lemmas(g, head)][:-1]
    text = "\n".join(body)
    o = [f"-- How {meaning} begin, by each production, and which production each of these nonterminals has at a terminal. {MADE}"]
    for module, names in STEP_IMPORTS:
        o += used(text, module, names.split())
    return o + [""] + body


def ranks(g):
    """How many productions of each symbol follow each other at one token."""
    return [f"-- How many productions of each nonterminal follow each other at most before it takes a token or ends. {MADE}",
            "use Rattle.std.specs.Prelude.{ℕ, List, [], ◌∷◌}", "",
            "unfoldable pub ranks : List ℕ", "ranks = " + listed(g.rank[h] for h in g.heads)]


def samples(g):
    """A kind of token of each class."""
    words = {name: name.capitalize() for name in "USING CLASS PUBLIC PRIVATE PROTECTED VIRTUAL OVERRIDE STATIC ASYNC VOID INT BOOL STRING IF WHILE RETURN THIS NEW ELSE TRUE FALSE DO UNUSED".split()}
    marks = {"OPEN": "OpenParenthesis", "CLOSE": "CloseParenthesis"}
    special = {"NAME": "kinds.Name []", "NUMBER": "kinds.Number 0", "LITERAL": "kinds.Literal []"}
    o = [f"-- A kind of token of each terminal. {MADE}", "use Rattle.std.specs.Prelude.{ℕ, List, [], ◌∷◌, get_or}",
         "use Rattle.chord_lexer.specs.declared.token.Kind.{Kind}", "use Rattle.chord_lexer.specs.declared.token.Kind.TheVariants as kinds",
         "use Rattle.chord_lexer.specs.declared.token.Keyword.TheVariants as keywords", "use Rattle.chord_lexer.specs.declared.token.Mark.TheVariants as marks", "",
         "abbrev pub samples : List Kind", "samples ="]
    for name in g.classes:
        kind = special.get(name) or (f"kinds.Word keywords.{words[name]}" if name in words else "kinds.Mark marks." + marks.get(name, name.title().replace("_", "")))
        o.append(f"    {kind} ∷")
    return o + ["    []", "", "abbrev pub sample : ℕ → Kind", "sample c = get_or samples c (kinds.Number 0)"]


def classes(g):
    o = ["//! The numbers of the terminals, and the number that stands for the end of the text. " + MADE]
    for i, name in enumerate(g.classes + ["END"]):
        o += ["", f"pub const {name}: u8 = {i};"]
    return o


def main():
    g = Grammar(os.path.join(HERE, "grammar.txt"))
    if "-v" in sys.argv:
        print(len(g.rules), "productions", len(g.heads), "symbols", g.end, "classes")
        for i in range(len(g.rules)):
            print(i, g.rule_name(i), g.rules[i][0], g.rules[i][1])
        for i, head in enumerate(g.heads):
            print(i, head, "default", g.default.get(head))
        print("; ".join(f"{i} {name}" for i, name in enumerate(g.classes)))
        return
    if sorted(g.heads) != sorted(head for _, heads in STEPS.values() for head in heads.split()):
        sys.exit("each symbol of the grammar stands in one file of STEPS")
    root = sys.argv[1] if len(sys.argv) > 1 else os.path.dirname(HERE)
    write(root, "crates/chord_tree/specs/Symbols.antt", symbols(g))
    write(root, "crates/chord_tree/specs/Grammar.antt", productions(g))
    write(root, "crates/chord_tree/specs/OneAhead.antt", tables(g))
    write(root, "crates/chord_parser/specs/Samples.antt", samples(g))
    for name, (meaning, heads) in STEPS.items():
        write(root, f"crates/chord_parser/proofs/made/{name}.antt", steps(g, meaning, heads.split()))
    write(root, "crates/chord_parser/proofs/made/Ranks.antt", ranks(g))
    write(root, "crates/chord_parser/src/terminal.rt", classes(g))


if __name__ == "__main__":
    main()

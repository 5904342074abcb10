"""Rows for checks/program/contrib: proofs, and what pbp2profile is to make of them, worked out by hand."""

INSTANCE = b"""* #variable= 3 #constraint= 3
min: +1 x1 +2 x2 -1 x3 ;
+2 x1 +2 x2 +1 x3 >= 3 ;
+1 x1 +1 x2 +1 x3 = 2 ;
+1 ~x1 +1 ~x3 >= 1 ;
"""
# Its constraints are 1, the two sides 2 and 3 of the equality, and 4.
V1, V2, F = "pseudo-Boolean proof version 1.2\nf 4 0\n", "pseudo-Boolean proof version 2.0\nf 4\n", "pseudo-Boolean proof version 2.0\nf 4\n"
NONE, END = "output NONE\nconclusion NONE\n", "end pseudo-Boolean proof\n"
NO_WAY = "no way to `{}` was found"
SUBPROOF = "line 3: the subproof is not written as such: `rup` has to do"

# Lines of a proof after its `f`, from line 3 on, the lines that come out, and the notes. Words of the command may come first.
REWRITTEN = [
    ("rup +1 x2 >= 1 ; 1 4 ~\n", "rup +1 x2 >= 1 ;\n", []),
    ("rup -1 x2 <= -1 ;\n", "rup +1 x2 >= 1 ;\n", []),
    ("pol 1 2 + x3 w 2 d ;\n", "pol 1 2 + x3 w 2 d\n", []),
    ("* no step\n\nrup +1 x2 >= 1 ; * 5\npol -1 -5 +\n", "rup +1 x2 >= 1 ;\npol 5 1 +\n", []),
    # 2 x1 + 2 x2 + x3 >= 3 in both spellings, and written as 2 x1 - 2 ~x2 + x3 >= 1.
    ("e 1 +2 x1 +2 x2 +1 x3 >= 3 ;\ne 1 : +1 x3 +2 x2 +2 x1 >= 3 ;\ne +2 x1 -2 ~x2 +1 x3 >= 1 ; 1\ne +1 x3 +2 x1 +2 x2 >= 3 ;\n", "", []),
    ("ea +2 x1 +2 x2 +1 x3 >= 3 ; 1\npol -1 4 +\n", "pol 1\npol 5 4 +\n", []),
    # The axioms take two from the degree 1, which is then 0 and not -1.
    ("pol 4 x1 + x3 + 1 +\ne 5 +2 x1 +2 x2 +1 x3 >= 3 ;\n", "pol 4 x1 + x3 + 1 +\n", []),
    # Divided by 2 it is x1 + x2 + x3 >= 2; two times that is 2 x1 + 2 x2 + 2 x3 >= 4.
    ("pol 1 2 d 2 *\ne 5 +2 x1 +2 x2 +2 x3 >= 4 ;\n", "pol 1 2 d 2 *\n", []),
    ("--ea-adds-nothing", "ea +2 x1 +2 x2 +1 x3 >= 3 ; 1\npol -1 3 +\n", "pol 4 3 +\n", []),
    # Without x3 the degree is 2; the axioms of x1 and ~x1 make it 1; saturated it is the clause.
    ("ia +1 x1 +1 x2 >= 1 ; 1\n", "pol 1 x3 w x1 + ~x1 + s\n", []),
    ("j 1 +1 x1 +1 x2 >= 1 ;\n", "pol 1 x3 w x1 + ~x1 + s\n", []),
    # The degree from 3 to 2, and four more x3.
    ("ia 1 : +2 x1 +2 x2 +5 x3 >= 2 ;\n", "pol 1 x1 + ~x1 + x3 4 * +\n", []),
    # One x1 less: the degree is 2.
    ("ia 1 +1 x1 +2 x2 +1 x3 >= 2 ;\n", "pol 1 ~x1 +\n", []),
    # ~x1 dropped, which leaves the degree 0, and x1 added.
    ("ia +1 x1 +1 ~x3 >= 0 ; 4\n", "pol 4 x1 w x1 +\n", []),
    ("ia -1 +1 ~x1 +1 ~x3 >= 1 ;\n", "pol 4\n", []),
    # Lowered by two.
    ("ia 1 +2 x1 +2 x2 +1 x3 >= 1 ;\n", "pol 1 x1 2 * + ~x1 2 * +\n", []),
    ("ia +1 x2 >= 1 ; 4\n", "rup +1 x2 >= 1 ;\n", ["line 3: no way to `+1 x2 >= 1` was found: it is written as `rup`"]),
    ("i 4 +1 ~x1 +1 ~x3 >= 0 ;\n", "", []),
    ("i +1 ~x1 >= 1 ; 4\n", "", ["line 3: `i` is dropped untested: no way to `+1 ~x1 >= 1` was found"]),
    # The clause of the solution has the id 5 for a moment, so what comes later has one more.
    ("sol ~x1 x2 x3\nrup +1 x2 >= 1 ;\npol 5 1 + 2 *\npol -1 2 +\ndel id 5 6\n",
     "solx ~x1 x2 x3\ndel id 5\nrup +1 x2 >= 1 ;\npol 6 1 + 2 *\npol 7 2 +\ndel id 6 7\n", []),
    ("solx ~x1 x2 x3 ;\ne 5 +1 x1 +1 ~x2 +1 ~x3 >= 1 ;\n", "solx ~x1 x2 x3\n", []),
    # The solution has the value 1, so x1 + 2 x2 - x3 is at most 0: ~x1 + 2 ~x2 + x3 >= 3.
    ("soli ~x1 x2 x3 : 1\ne 5 +1 ~x1 +2 ~x2 +1 x3 >= 3 ;\n", "soli ~x1 x2 x3\n", []),
    ("del range 1 3\n", "del id 1 2\n", []),
    ("del range -2 -1 ;\n", "del id 3\n", []),
    ("del id 2\ndel range 1 9\n", "del id 2\ndel id 1 3 4\n", []),
    ("del id 2 3\ndel range 1 4\n", "del id 2 3\ndel id 1\n", []),
    ("del spec +1 ~x3 +1 ~x1 >= 1 ;\n", "del id 4\n", []),
    ("rup +1 x1 +1 x2 >= 1 ;\nrup +1 x2 +1 x1 >= 1 ;\ndel find +1 x1 +1 x2 >= 1 ;\n",
     "rup +1 x1 +1 x2 >= 1 ;\nrup +1 x2 +1 x1 >= 1 ;\ndel id 6\n", []),
    ("core id 1 2\ncore range 1 3\n", "", []),
    ("# 1\nrup +1 x2 >= 1 ;\n# 0\nrup +1 x2 >= 1 ;\n#2\nrup +1 x2 >= 1 ;\nw 1\n", "rup +1 x2 >= 1 ;\n" * 3 + "del id 5 7\n", []),
    # With x2 = 0 the first constraint makes both others 1, which the last one forbids.
    ("red +1 x2 >= 1 ; x2 -> 1 ;\n", "rup +1 x2 >= 1 ;\n", []),
    ("red +1 x2 >= 1 ; ;\n", "rup +1 x2 >= 1 ;\n", []),
    ("--red-as-rup", "red +1 x2 +1 x1 >= 1 ; x2 -> 1 ;\n", "rup +1 x2 +1 x1 >= 1 ;\n", []),
    # The negation is 5, x1 is 6, the sum is 7 and the constraint 8.
    ("red +1 x2 >= 1 ; ; begin\n  rup +1 x1 >= 1 ;\n  pol -1 4 + 5 +\nend\npol 8 1 +\n",
     "rup +1 x1 +1 x2 >= 1 ;\npol 5 4 + x2 +\nrup +1 x2 >= 1 ;\ndel id 5 6\npol 7 1 +\n", [SUBPROOF]),
    # Without x2 the two others are true: two x2 hold the step alone.
    ("red +1 x2 >= 1 ; ; begin\n  rup +1 x1 +1 x3 >= 2 ;\nend\n",
     "rup +1 x1 +1 x3 +2 x2 >= 2 ;\nrup +1 x2 >= 1 ;\ndel id 5\n", [SUBPROOF]),
    # Labels: one that is given again means the newest, and one of a subproof its step.
    ("@a rup +1 x2 >= 1 ;\npol @a 1 +\n@a rup +1 x2 +1 x1 >= 1 ;\npol @a 2 *\ne @a +1 x1 +1 x2 >= 1 ;\ndel id @a -3\n",
     "rup +1 x2 >= 1 ;\npol 5 1 +\nrup +1 x2 +1 x1 >= 1 ;\npol 7 2 *\ndel id 7 6\n", []),
    ("@a red +1 x2 >= 1 ; ; begin\n  @b rup +1 x1 >= 1 ;\n  pol @b 4 + 5 +\nend\npol @a 1 +\n",
     "rup +1 x1 +1 x2 >= 1 ;\npol 5 4 + x2 +\nrup +1 x2 >= 1 ;\ndel id 5 6\npol 7 1 +\n", [SUBPROOF]),
    # The negation forces ~x2, against the step before.
    ("rup +1 x2 >= 1 ;\npol 2 3 + 4 +\nred +2 x2 +1 x1 >= 2 ; x1 -> 1\n", "rup +1 x2 >= 1 ;\npol 2 3 + 4 +\nrup +2 x2 +1 x1 >= 2 ;\n", []),
    # A label says nothing before a line that adds nothing.
    ("@a e 1 +2 x1 +2 x2 +1 x3 >= 3 ;\nrup +1 x2 >= 1 ;\n", "rup +1 x2 >= 1 ;\n", []),
    ("ia >= 0 ; 4\ni >= 0 ; 4\n", "pol 4 x1 w x3 w\n", []),
    ("del range 2 2\ndel range 9 3\n", "", []),
    # 4 x1 + ~x1 >= 0 is 3 x1 >= -1, whose degree becomes 0; x1 + ~x1 >= 0 has no terms.
    ("pol x1 4 * ~x1 +\ne 5 +3 x1 >= -1 ;\npol x1 ~x1 +\ne 6 >= -1 ;\n", "pol x1 4 * ~x1 +\npol x1 ~x1 +\n", []),
    # The negation 5, that of the goal 6, the step 7, and the constraint 8.
    ("red +1 x2 >= 1 ; ; begin\n  proofgoal #1\n    rup >= 1 ;\n  end -1\nend\npol 8 1 +\n", "rup +1 x2 >= 1 ;\npol 5 1 +\n", [SUBPROOF]),
]

# Lines that are refused, and why.
REFUSED = [
    # Neither x1 nor the last constraint forces anything.
    ("red +1 ~x1 >= 1 ; x1 -> 0 ;\n", "line 3: `red` with a witness is outside the profile: `+1 ~x1 >= 1` does not follow by unit propagation"),
    ("pol @b\n", "line 3: `@b` is no id"),
    ("@a rup +1 x2 >= 1 ;\ndel id @a\npol @a\n", "line 5: no constraint @a is live"),
    ("pol 1 5}d +\ne 5 +1 x2 >= 1 ;\n", "line 4: no postfix expression: `1 5}d +`"),
    ("del id " + "9" * 5000 + "\n", f"line 3: `{'9' * 40}..` is no id"),
    ("pol 9\ne 5 +1 x2 >= 1 ;\n", "line 4: no constraint 9 is live in `9`"),
    ("pol 5\ne 5 +1 x2 >= 1 ;\n", "line 4: no constraint 5 is live in `5`"),
    # Nothing follows from a constraint that is deleted.
    ("red +1 x2 >= 1 ; x2 -> 1\ndel id 1\ndel id 2 3 5\nred +1 x2 +1 x1 >= 1 ; x2 -> 1\n",
     "line 6: `red` with a witness is outside the profile: `+1 x2 +1 x1 >= 1` does not follow by unit propagation"),
    ("red +1 y1 >= 1 ; y1 -> 1\n", "line 3: `red` with a witness is outside the profile: `+1 y1 >= 1` does not follow by unit propagation"),
    ("dom +1 x2 >= 1 ; x2 -> 1 ;\n", "line 3: `dom` (dominance) is outside the profile"),
    ("rup +1 x2 >= 1 ;\nobju new +1 x1 ;\n", "line 4: `obju` (a change of the objective) is outside the profile"),
    ("step 1\n", "line 3: `step` is no rule that is known here"),
    ("e 1 +2 x1 >= 3 ;\n", "line 3: constraint 1 is `+2 x1 +2 x2 +1 x3 >= 3`, not `+2 x1 >= 3`"),
    ("ea +2 x1 >= 3 ;\n", "line 3: no live constraint is `+2 x1 >= 3`"),
    ("i 1 +1 x1 x2 >= 1 ;\n", "line 3: `+1 x1 x2 >= 1` is no linear constraint"),
    ("ia 5 +1 x1 >= 1 ;\n", "line 3: no constraint 5 is live"),
    ("rup +1 x1 = 1 ;\n", "line 3: an equality in `rup`"),
    ("pol -1 -5 +\n", "line 3: no constraint -5 is live"),
    ("sol ~x1 x2 x3\npol 5 1 +\n", "line 4: no constraint 5 is live"),
    ("pol 1 +\ne 5 +1 ~x1 +1 ~x3 >= 1 ;\n", "line 4: no postfix expression: `1 +`"),
    ("del spec +1 x1 >= 1 ;\n", "line 3: no live constraint is `+1 x1 >= 1`"),
    ("del range 1\n", "line 3: `del range` takes two ids"),
    ("del id 1 1\n", "line 3: constraint 1 is deleted twice"),
    ("del id 1\ndel id 1\n", "line 4: no constraint 1 is live"),
    ("del all\n", "line 3: `del all` is no rule that is known here"),
    ("w 0\n", "line 3: level 0 is not wiped"),
    ("# x\n", "line 3: a level is a number"),
    ("conclusion ENUMERATION\n", "line 3: `conclusion ENUMERATION` is outside the profile"),
    ("rup +1 x2 >= 1 ;\n", "the proof ends without a conclusion"),
]

# Whole proofs, what comes out, notes, and what pb says of it. OPTIMUM is that of examples/optimum.opb.
OPTIMUM = b"* #variable= 3 #constraint= 2\nmin: +1 left +1 middle +1 right ;\n+1 left +1 middle >= 1 ;\n+1 middle +1 right >= 1 ;\n"
NO_OBJECTIVE = INSTANCE.replace(b"min: +1 x1 +2 x2 -1 x3 ;\n", b"")
WHOLE = [
    (OPTIMUM, "pseudo-Boolean proof version 1.0\nf 2 0\no ~left middle ~right\np 1 3 + 0\nc 4 0\n",
     "pseudo-Boolean proof version 2.0\nf 2\nsoli ~left middle ~right\npol 1 3 +\noutput NONE\nconclusion BOUNDS 1 : 4 1\n" + END, [],
     b"verified BOUNDS 1 1\n"),
    (INSTANCE, V1 + "o ~x1 x2 x3\nu +1 x2 >= 1 ;\nd 1 2 0\n",
     F + "soli ~x1 x2 x3\nrup +1 x2 >= 1 ;\ndel id 1 2\noutput NONE\nconclusion BOUNDS -1 1\n" + END, [], b"verified BOUNDS -1 1\n"),
    (INSTANCE, V1 + "o x2 x3\n", F + "soli x2 x3\n" + NONE + END,
     ["a solution leaves out names of the objective: its value is not known here, so the conclusion is NONE"], b"verified NONE\n"),
    (NO_OBJECTIVE, V1 + "v ~x1 x2 x3\n", F + "solx ~x1 x2 x3\noutput NONE\nconclusion SAT\n" + END, [], b"verified SAT\n"),
    (INSTANCE, V1, F + NONE + END, [], b"verified NONE\n"),
    (b"* #variable= 1 #constraint= 1\n>= 1 ;\n", "pseudo-Boolean proof version 1.1\nf 1 0\nc 1 0\n",
     "pseudo-Boolean proof version 2.0\nf 1\noutput NONE\nconclusion UNSAT : 1\n" + END, [], b"verified UNSAT\n"),
    (INSTANCE, V2 + "output EQUIOPTIMAL IMPLICIT\nconclusion BOUNDS -INF +INF\n" + END,
     F + "output NONE\nconclusion BOUNDS -1 INF\n" + END,
     ["line 3: the claim `output EQUIOPTIMAL IMPLICIT` is dropped", "line 4: the lower bound -INF is -1, the sum of the negative coefficients"],
     b"verified BOUNDS -1 INF\n"),
    # With x2 = 0 both others are 1, which the last constraint forbids; so the objective is at least 2 - 1.
    (INSTANCE, V2 + "sol ~x1 x2 x3\nrup +1 x2 >= 1 ; 1 4\nrup +1 x1 +2 x2 -1 x3 >= 1 ; -1\noutput NONE ;\nconclusion BOUNDS 1:-1 1: ~x1 x2 x3 ;\n" + END,
     F + "solx ~x1 x2 x3\ndel id 5\nrup +1 x2 >= 1 ;\nrup +1 x1 +2 x2 -1 x3 >= 1 ;\noutput NONE\nconclusion BOUNDS 1 : 7 1 : ~x1 x2 x3\n" + END,
     [], b"verified BOUNDS 1 1\n"),
    # Only if `ea` adds nothing is the constraint 5 that one; only if the ids of a subproof are given again.
    (INSTANCE, V2 + "ea +2 x1 +2 x2 +1 x3 >= 3 ; 1\nrup +1 x2 >= 1 ;\ne 5 +1 x2 >= 1 ;\n" + NONE + END, F + "rup +1 x2 >= 1 ;\n" + NONE + END,
     ["read as by --ea-adds-nothing, as otherwise: line 5: constraint 5 is `+2 x1 +2 x2 +1 x3 >= 3`, not `+1 x2 >= 1`"], b"verified NONE\n"),
    (INSTANCE, V2 + "red +1 x2 >= 1 ; ; begin\n  rup +1 x1 >= 1 ;\nend\ne 5 +1 x2 >= 1 ;\npol -1 1 +\n" + NONE + END,
     F + "rup +1 x1 +1 x2 >= 1 ;\nrup +1 x2 >= 1 ;\ndel id 5\npol 6 1 +\n" + NONE + END,
     ["read as by --scoped-ids, as otherwise: line 6: no constraint 5 is live", SUBPROOF], b"verified NONE\n"),
    (INSTANCE, V2 + "ea +2 x1 +2 x2 +1 x3 >= 3 ; 1\ne 9 +1 x2 >= 1 ;\n" + NONE + END, "", ["line 4: no constraint 9 is live"], None),
    # Labels of an instance, which pb does not read.
    (b"* #variable= 2 #constraint= 3\n@one +1 x1 >= 1 ;\n@two +1 x2 = 1 ;\n@three +1 x2 +1 x1 >= 1 ;\n",
     "pseudo-Boolean proof version 2.0\nf 4\npol @three @one +\n" + NONE + END, "pseudo-Boolean proof version 2.0\nf 4\npol 4 1 +\n" + NONE + END, [], b""),
    (INSTANCE, V2 + "red +1 x2 >= 1 ; ; begin\n", "", [SUBPROOF, "the proof ends within a subproof"], None),
    (INSTANCE, V2.replace("2.0", "3.0"), "", ["line 1: version 3.0 of the format; 1.0 to 2.0 are read"], None),
    (INSTANCE, "proof\n", "", ["line 1: a proof begins with `pseudo-Boolean proof version`"], None),
]

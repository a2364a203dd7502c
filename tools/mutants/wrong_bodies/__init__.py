"""Tries must-fail edits, many in one check.

`rt must-fail` tries each edit by a check of its own. Most of such a check is loading, and proving again what the last edit
changed. Here a round is one check of a copy of a crate that has many edits in it, and it judges each of them by what it
says of that edit's function. Its verdicts are those of the kit, since a contract speaks for its function alone: whether a
function is proved depends on its own body and proof, on the contracts of what it calls, on types, constants, definitions
and lemmas, and on no other body.

The copy (copies.py). The wrong body of a plain function stands behind that function under a name of its own, with the same
attributes and clauses and a copy of its proof, so one check judges many wrong bodies of one function. A method of a trait
keeps its name, so an edit of it stands in its place, and a round has one for each such method. What a round does not judge
stands there as a contract alone: an endless loop is its body, and a hole its proof, for which no tactic is named. So does a
function whose wrong bodies all stand behind it. Crates are judged as source below an empty crate. So the check makes no
files to start proofs from, and a static library, or a program without its `main`, reads no code that it would link. Crates
that have few edits share a round where none of them stands on another, since most of a small round is reading the libraries
below (together.py).

By a goal (goals.py). The file of an edit names a goal that refuses it, and its first round asks it for this goal alone. Where
that does not refuse it, another round tries it by all goals, so a name that fits no longer costs time and changes no verdict.

By a search with a bound (bounded.py). The tactics look for seconds before they leave a false goal open. So the file may also say
by which search this round tries the goal. Each run tries 20 of the right bodies, drawn by chance, by the same searches within
half their bounds, and each of these has to be proved. `--whole` leaves the goals to the tactics, as the kit does.

What an edit changes (reach.py). In src/ it is the function that has its text. A definition of specs/ on which one function
alone rests counts as that function. An edit that changes more than that is judged by the one function that its name names
and that rests on it, or by each that does, and by the lemmas that do; the bodies of all these stay. Nothing in
its round rests on what another edit there changes. Where it is not known what rests on a change, as of a constant or a
type, the edit has a round of its own, with all bodies.

What a check says (verdicts.py):
  refused   a goal is open at a place in the function, or an answer that is stored for one of its goals does not prove it;
            `at a bound` where the search for this answer broke off at a bound on its steps, before it had tried every way.
            `tools/mutants/edits --whole` tries those edits without the bounds
  waits     no goal of its own is open, but it calls a function that another edit changed: a later round tries it
  else      it is tried alone, by a check of the whole crate from nothing, and that answer stands: refused alone; NOT REFUSED;
            BAD EDIT where its text does not compile or read; A NAME IS GONE where the check says only that a stored proof
            names what the edit took away, which any change of the text would bring about; UNCLEAR where it says what is not
            known here
The rounds rest on the wording of the kit's checks, so `./test --kit`, which tries the edits one by one, has to be run after
each change of the kit.

How rounds run (rounds.py, checks.py, turns.py). A crate is checked as it stands, and has to be proved. Where `rt ci` has
just proved it, that check is made only where many rounds gain by it. A round begins over a copy of the work that this check
kept, or else the first round, which saves it a third. What fits no later text is checked again, so a round has the verdicts
of one from nothing. Each check has one job, for copies that share a check cost more than they save. Beside `rt ci` the
edits of a crate wait until it is proved, and a check stands still while others want its processor.

Kept verdicts (keys.py, kept.py). That an edit is refused is kept on this machine; nothing else is. Its key is the sum of
the copy in which a round would try this edit by itself, of what a check reads beside that copy, and of this script. So
nothing has to be argued beyond what a round is: the key has all that such a check reads. Of the edit's crate that is the
function with the edit and its proof; of each other function what stands there in a round, which is no body, no tactic and
no proof; and all types, constants, definitions, lemmas and other attributes. A body that a round leaves is in the key: of a
function that calls itself, of a default method of a trait, and of all that rests on an edit of several functions. An edit
that has a round of its own with all bodies has them all in its key. Comments and empty lines are not: no check reads them,
and the place of a goal is told where it stands now.

Of a library below, the key has what a check above reads: the signatures and clauses that the kit wrote into it without
bodies, its types and constants, its specs, and what its `format` says of each function. Another body in `bitlanes` changed
none of these: it changed code, sums, and what the library keeps for its own proofs. An edit that was refused alone has in
its key the whole text of its crate, and the sums of all files of the libraries below. A crate of which all verdicts are
kept is not checked. Beside `rt ci` they are told once it is proved.

Tracked verdicts (tracked.py). tools/mutants/refused has such a sum for each edit that a round refused. Of the kit it has the
name of the logic alone, since two machines may have two builds of the kit. A run takes an edit with this sum as refused, but for
those that it draws by chance. With --anew it tries all.

Controls (controls.py). A right body that is written otherwise is tried in such rounds too, by all goals. It is proved where the
check says so of its function: no hole is left in its proof, or none but those of the functions that it calls, whose contracts
the round has. An error that says only that a proof names what is gone refuses it too, and is counted by itself.
"""

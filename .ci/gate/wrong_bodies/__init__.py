"""Each wrong body in crates/*/wrong-bodies/ is refused by the prover, at the function that it turns.

A file there has a line `fn: PATH`, the one function whose body it turns, and the edit. Since a function's proof rests
on the contracts of others, and never on their bodies, wrong bodies of different functions are tried in one check of the
crate, of these functions alone. In its copy each other function is a stub: `loop {}` for its body, and a hole for its
proof and for that of each lemma. So nothing is proved again except what is turned. The prover has to report each wrong
body as not proved, and not only because a file of its proof names what the edit took away; a check in which any other
file is refused counts for nothing. Where a function has several, each further one turns a copy of it, under a name of
its own; of a method of a trait, or a function of a cycle of calls, it is tried in a further check. So is one whose
function calls another that is turned, and one with a line `alone: WHY`, which turns more than one body, or what others
cite; its function is the one that has to be reported. What no check over stubs decides is tried over the crate as it
is, with the proofs of all that the function calls. The checks of a crate follow each other, and each begins with what
the earlier ones kept; crates are tried side by side.

What was refused is kept on this machine, with what some kits keep, by the sum of all that the refusal depends on (`Sums`).
A later run tries only what is new, or depends on what changed. `--anew` tries all, whatever was kept.

- `sources` finds the functions of a source, and their proofs.
- `edits` reads wrong bodies, and puts them, their copies and stubs into a copy of the crate.
- `sums` has what a refusal depends on, and keeps it.
- `trial` has the prover check a copy, and says what was refused.
- `__main__` is the command `.ci/wrong-bodies`, and decides what is tried when. It alone has no part in the sums.
"""

// readings.rs: what the paper behind the rules leaves open, and what was decided here; no code.
//
// decided: a new group record has the root open, id 0, a scope whose domain is the base; next is 1.
// decided: a base too large leaves the record of base 0 with no live group, next 0, unsealed.
// decided: can_seal of a sealed record is what upstream's body computes: yes, for none is undrained.
// decided: retry_all answers yes or no as upstream; it refuses only with 1, and no changes nothing.
// decided: accepts_acquisition of an id that is not live gives 10, as every other call by id.
// decided: contains, len, is_empty, accepts_acquisition and may-open give 1 on a spoiled record too.
// decided: contains of an id that is not live is no, and not 10: it is the question itself.
// decided: a scope's reader does not look at the list, for a scope has no bindings.
// decided: a refused get leaves `seen`, for a refusal changes nothing.
// decided: an empty script has an empty line 1, which is bad, as the driver's empty input.
// decided: may a group be opened says yes exactly if opening a scope would be done.
// decided: register_all has no limit of numbers: with more than 64 it ends as the 65th register would, by 3, or by 2 for a 0.
// decided: a recorded list with no number in it gets 1 where the used rows don't fit, and 17 never, for it needs no row.
// decided: a refused list tells how many were taken, and so which one was refused; that number itself does not come back.

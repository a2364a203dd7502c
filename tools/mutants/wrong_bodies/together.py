"""Chooses which edits stand in a round together."""

# A crate with more edits than these has rounds of its own. The others share some.
FEW = 26


def taken_together(edits, most):
    """Edits for one round, at most so many. Nothing rests on what two of them change, and no wrong body that stands beside its
    function rests on a definition that one changes. An edit on which nobody knows what rests is by itself."""
    now, texts, taken, shaken = [], {}, set(), set()
    for edit in sorted(edits, key=lambda edit: (edit.reach is None, edit.stands_beside)):
        if now and (len(now) == most or None in (edit.reach, now[0].reach)):
            continue
        reach = {(edit.crate.name, symbol) for symbol in edit.reach or ()}
        if edit.stands_beside:
            if not reach & shaken:
                now.append(edit)
            continue
        made = None if reach & taken else edit.applied(texts.get(edit.crate, {}))
        if made is None:
            continue
        now.append(edit)
        texts[edit.crate] = made
        taken |= reach
        if changes_definitions(edit):
            shaken |= taken
    return now


def changes_definitions(edit):
    return any(path.startswith("specs/") for path, _, _ in edit.pairs)


def groups(by_crate, project, few=FEW):
    """The edits to try one group beside another: those of each crate that has more than a few, the longest lists first, and
    then those of several crates, none of which stands on another of them. These are functions' edits alone."""
    left = sorted(filter(None, by_crate), key=len)
    alone, shared = [], []
    while left:
        chosen = crates_to_share(left, project, few)
        if not chosen:
            alone, left = left, []
        else:
            shared.append([edit for own in chosen for edit in own])
            left = [own for own in left if own not in chosen]
    return [*reversed(alone), *shared]


def crates_to_share(by_crate, project, few):
    """Those of these lists of edits that may share rounds."""
    chosen, below = [], set()
    for own in by_crate:
        crate = own[0].crate
        under = project.below(crate)
        is_plain = len(own) <= few and not any(edit.changes_several or edit.is_bad for edit in own)
        stands_apart = crate not in below and not any(other[0].crate in under for other in chosen)
        if is_plain and stands_apart:
            chosen.append(own)
            below |= under
    return chosen

"""Tries the wrong edits of a crate in rounds: in each as many together as change different functions, and in the end one by one what no round has shown."""
from dataclasses import dataclass

import twins
from verdicts import BY_NOTHING


@dataclass
class Answer:
    """What became of an edit: what refuses it, as something must, and where, or what is wrong with it."""

    edit: str
    text: str
    kind: str = BY_NOTHING

    def is_refused(self):
        return self.kind != BY_NOTHING


def together(edits, most, takes_twin):
    """Returns edits that can be tried at once, at most so many: no function is changed by two of them, but that a further one may be tried in a twin of it, and
    one that bears on functions that it does not change is tried by itself."""
    taken, batch = {}, []
    for edit in edits:
        if edit.is_apart or len(batch) == most:
            continue
        if not edit.functions & taken.keys():
            batch.append(edit)
        elif edit.original and takes_twin(edit):
            batch.append(twins.twin_of(edit, 1 + max(taken[it] for it in edit.functions)))
        else:
            continue
        for it in edit.functions:
            taken[it] = taken.get(it, 0) + 1
    return batch or edits[:1]


def unreadable(batch, reads):
    """Returns the edits of a batch whose text the front end refuses by itself, found by halves, each with what it said."""
    said = reads(batch)
    if said.is_judged:
        return []
    if len(batch) == 1:
        return [(batch[0], said)]
    half = len(batch) // 2
    return unreadable(batch[:half], reads) + unreadable(batch[half:], reads)


def answer_of(edit, said):
    """Returns what a check says of an edit, whose functions no other edit of it changes. None where it says nothing, or only that the borrow checker does not
    cover one of these: it covers none that calls such a one either, so that may come of another edit."""
    # (open goals come first)
    for path in sorted(edit.judges & said.refused.keys(), key=lambda it: (said.refused[it][0], it)):
        kind, line = said.refused[path]
        return Answer(edit.name, f"refused at {path}, {kind}: {line}", kind)
    return None


def answer_alone(edit, said):
    """Returns what the check of the whole crate with this edit alone says of it."""
    answer = answer_of(edit, said)
    if answer:
        return answer
    for path in sorted(edit.judges & said.uncovered.keys()):
        return Answer(edit.name, f"REFUSED BY NO GOAL: the borrow checker does not cover {path} with it, which says nothing of a contract")
    if not said.is_judged:
        return Answer(edit.name, f"NOT TRIED: {said.first}")
    if said.is_proved:
        return Answer(edit.name, "NOT REFUSED: the crate is still proved with it")
    for path, (_, line) in sorted(said.refused.items()):
        return Answer(edit.name, f"REFUSED ELSEWHERE, in no function that it changes or names by `refused at:`: at {path}: {line}")
    return Answer(edit.name, f"REFUSED BY NO GOAL: {said.first}")


class Rounds:
    """Tries edits. `prove(batch, is_whole)` checks the crate with the edits of a batch, the whole of it or what judges them alone, and `reads(batch)` asks
    the front end."""

    def __init__(self, prove, reads, tell):
        self.prove, self.reads, self.tell = prove, reads, tell
        self.answers, self.tried_once, self.alone, self.has_twins = [], set(), [], True

    def answer(self, answer):
        self.answers.append(answer)
        self.tell(answer)

    def judged(self, batch, said):
        """Takes in what a check says of a batch, and returns the edits of it that go into the next round, since it may have waited for another's proof."""
        again = []
        for edit in batch:
            answer = answer_of(edit, said)
            if answer:
                self.answer(answer)
            elif edit.name in self.tried_once or edit.judges <= said.proved:
                self.alone.append(edit)
            else:
                self.tried_once.add(edit.name)
                again.append(edit)
        return again

    def rejected(self, batch, said):
        """Takes in that a batch came to no verdict, and returns the edits of it that can still be tried."""
        bad = unreadable(batch, self.reads) if said.is_rejected else []
        for edit, why in bad:
            self.answer(Answer(edit.name, f"DOES NOT READ: {why.first}"))
        if not bad and len(batch) == 1:
            self.alone += batch
            return []
        return [it for it in batch if it not in [edit for edit, _ in bad]]

    def run(self, edits):
        """Returns an answer for each of the edits."""
        for edit in edits:
            if edit.fault:
                self.answer(Answer(edit.name, edit.fault))
        left, most = sorted((it for it in edits if not it.fault), key=lambda it: it.is_apart), len(edits)
        while left:
            batch = together(left, most, lambda it: self.has_twins and it.name not in self.tried_once)
            said = self.prove(batch, False)
            if not said.is_judged and any(it.twin for it in batch):
                # (a twin may be what the front end does not take)
                self.has_twins = False
                continue
            own = {it.name: it for it in left}
            left = [it for it in left if it.name not in {edit.name for edit in batch}]
            if said.is_judged:
                left = left + [own[it.name] for it in self.judged(batch, said)]
            else:
                rest = self.rejected(batch, said)
                most = most if len(rest) < len(batch) else max(1, len(batch) // 2)
                left = rest + left
        by_name = {it.name: it for it in edits}
        for edit in (by_name[it.name] for it in self.alone):
            self.answer(answer_alone(edit, self.prove([edit], True)))
        return self.answers

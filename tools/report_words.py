"""The sentences of a page of tools/report.py: the headline, what to do next, what is certain, and warnings."""
import explain
from diagnosis import digest
from texts import plural

NUMBERS = "no one two three four five six seven eight nine ten eleven twelve".split()
KINDS = ("certain", "possible", "open", "excluded")


def word(count):
    return NUMBERS[count] if count < len(NUMBERS) else f"{count:,}"


def listing(words):
    """Names in a row, as a sentence has them."""
    words = list(words)
    if len(words) > 12:
        words = words[:12] + [f"{len(words) - 12} more"]
    return " and ".join(filter(None, [", ".join(words[:-1]), words[-1] if words else ""]))


def sentence(words):
    """Words with a capital at their front and a point at their end."""
    return words[:1].upper() + words[1:] + "." * (words[-1:] not in ".?!")


def all_of(count):
    return {1: "the one alarm", 2: "both alarms"}.get(count, f"all {count:,} alarms")


class Headline:
    """The sentence at the top, and what to do next."""

    def __init__(self, says, after=""):
        self.says, self.after = says, after


class Words:
    """What is to be said of a diagnosis."""

    def __init__(self, found):
        self.found = found
        self.count = len(found.log.labels)
        self.steps = f"within {plural(int(found.n), 'step')}" if found.n.isdecimal() else "within these steps"
        self.alarms = "the one alarm" if self.count == 1 else f"the {plural(self.count, 'alarm')}"

    def headline(self):
        reply = self.found.main
        said = {"EXPLAINED": self.explained, "CHEAPEST": self.cheapest, "NONE": self.none, "UNDECIDED": self.undecided, "MANY": self.much, "DEAR": self.much}.get(reply.kind)
        if said:
            return said(reply)
        if reply.is_stopped:
            return Headline(f"There is no answer yet: the program was stopped after {self.found.seconds:g} seconds.",
                            "Allow more time with --seconds, or ask with fewer steps or a smaller budget. This doesn't say that nothing explains the log.")
        return self.mistake(reply)

    # Answers.

    def explained(self, reply):
        count, aside = reply.numbers[0], len(self.found.false_in(reply.run))
        if not self.count:
            return Headline("No fault is needed: the log has no alarms.")
        if not count:
            return Headline(f"No fault is needed: {all_of(self.count)} can be explained {self.steps} without one.")
        if aside:
            return Headline(self.with_false(count - aside, aside))
        rest = "no fewer can" if count > 1 else "without a fault nothing does"
        return Headline(f"{sentence(word(count))[:-1]} {'faults explain' if count > 1 else 'fault explains'} {all_of(self.count)} {self.steps}, and {rest}.")

    def with_false(self, real, aside):
        """The sentence for faults and alarms that are set aside."""
        set_aside = "the one alarm is set aside as false"
        if self.count > 1:
            set_aside = f"{word(aside)} of the {word(self.count)} alarms {'is' if aside == 1 else 'are'} set aside as false"
        if not real:
            return f"No fault is needed {self.steps} if {set_aside}, and with fewer faults and false alarms nothing explains the log."
        return (f"{sentence(word(real))[:-1]} {'faults explain' if real > 1 else 'fault explains'} the log {self.steps} if {set_aside}; "
                f"counted together these are {word(real + aside)}, and no fewer will do.")

    def cheapest(self, reply):
        if not reply.numbers[0]:
            return Headline(f"No fault is needed: {all_of(self.count)} can be explained {self.steps} at no cost.")
        return Headline(f"Faults that cost {reply.numbers[0]:,} together explain {all_of(self.count)} {self.steps}, and nothing that costs less does.")

    def none(self, reply):
        return Headline(f"Nothing explains {self.alarms} {self.steps}, with however many faults.", self.after_none() + self.after_doubt())

    def after_none(self):
        strange = self.found.strange()
        if strange:
            return (f"No event of the model raises {listing(strange)}, so more steps won't help. Correct the label, add to the model the event that raises it, "
                    "or doubt the alarm: `maybe` in place of `alarm` in its row.")
        return (f"First ask with more steps, say {min(int(self.found.n) * 2 or 4, 1000)}: the plant may need them. If nothing explains the log then either, doubt the alarms "
                "(`maybe` in place of `alarm`) and see which are set aside, and take out pairs `before` that aren't sure.")

    def after_doubt(self):
        """Which alarms are set aside if each may be false."""
        doubted = self.found.doubted
        if not doubted or doubted.run is None:
            return ""
        aside, faults = self.found.false_in(doubted.run), list(self.found.faults_in(doubted.run))
        count = f"the least is {doubted.numbers[0]}" if doubted.kind == "EXPLAINED" else "an answer is"
        with_faults = f", with the fault{'' if len(faults) == 1 else 's'} {listing(faults)}" if faults else ""
        these = "this alarm" if len(aside) == 1 else "these alarms"
        return f" If each alarm is doubted, {count}: {listing(aside)} set aside as false{with_faults}. So look at {these} first, though others may do as well."

    def more(self):
        budget = self.found.budget
        return "ten times the budget" + (f" ({int(budget) * 10 or 1000:,})" if budget.isdecimal() else "")

    def undecided(self, reply):
        budget = f"{int(self.found.budget):,}"
        if len(reply.numbers) < 2:
            return Headline(f"There is no answer yet: the budget was spent before a run was found that explains {self.alarms} {self.steps}.",
                            f"The budget of {budget} was too small. Ask with {self.more()}, or with fewer steps. This doesn't say that nothing explains the log.")
        low, high = reply.numbers
        what = f"that costs {high:,}" if reply is self.found.cheapest else f"of {plural(high, 'fault')}"
        return Headline(f"An explanation {what} was found {self.steps}, but it isn't known whether less will do: the least is from {low:,} to {high:,}.",
                        f"The budget of {budget} was spent. Ask with {self.more()}, or with fewer steps. "
                        "The run below does explain the log; with fewer faults or at less cost there may be another.")

    def much(self, reply):
        what, last = ("has more than 255 faults", "doubt alarms with `maybe` in place of `alarm`") if reply.kind == "MANY" else ("costs more than 1,000", "give smaller costs")
        return Headline(f"Everything that explains {self.alarms} {self.steps} {what}.", "The run below explains the log, and isn't the least. So much is rarely meant: look in the model for an event "
                        f"that is marked as a fault and happens all the time, ask about a shorter piece of the log, or {last}.")

    # No answers.

    def mistake(self, reply):
        """A mistake in the files or the words, a question that is too large, or a program that broke off."""
        call = explain.Call(reply.words[1:])
        said = sentence(explain.meaning(call, explain.Printed(reply.text, reply.status)) or "docs/formats.md says what this reply means")
        if reply.kind in ("MODEL", "LOG", "COST"):
            return self.in_text(reply, said.rpartition("\n")[2])
        if reply.kind in ("LOAD", "LONG"):
            name = ["model", "log", "costs"][reply.numbers[0] - 1]
            are = "are" if name == "costs" else "is"
            how, more = (f"{are} too long", "") if reply.kind == "LONG" else ("can't be read", " Look at the name of the file and who may read it.")
            return Headline(f"The {name} {how}, so {self.unasked(name)}.", said + more)
        if reply.kind == "LARGE":
            return Headline("The question is too large, so nothing was asked.", said + " Ask with fewer steps, or about a piece of the log.")
        if reply.kind == "USAGE":
            return Headline("A word of the call is wrong, so nothing was asked.", said)
        return Headline(f"There is no answer: the program ended with status {reply.status}.", said)

    def unasked(self, name):
        return "no cost was asked for" if name == "costs" else "nothing was asked"

    def in_text(self, reply, reason):
        """A mistake in a text, with the reason."""
        name, path = {"MODEL": ("model", self.found.model_path), "LOG": ("log", self.found.log_path), "COST": ("costs", self.found.costs_path)}[reply.kind]
        place = f"{'row' if reply.kind == 'LOG' else 'line'} {reply.numbers[0]:,}"
        rest = "What follows is without costs." if name == "costs" else "It is the first mistake; there may be more below."
        return Headline(f"The {name} {'have' if name == 'costs' else 'has'} a mistake in {place}, so {self.unasked(name)}.", f"Correct {place} of {path}: {reason} {rest}")

    # What is certain.

    def in_short(self):
        """What is sure and what isn't, in two or three sentences."""
        known, verdicts = self.found.known_of(), self.found.verdicts
        if not known or verdicts.first() == "EXPLAINED 0":
            return ""
        by = {kind: [name for name, its in known.items() if its == kind] for kind in KINDS}
        count, said = verdicts.numbers[0], []
        for kind in ("certain", "possible"):
            said += [f"{listing(by[kind])} {'is' if len(by[kind]) == 1 else 'are'} {kind}"] * bool(by[kind])
        if by["open"]:
            said.append(f"of {listing(by['open'])} nothing is known yet, since the budget or the time was spent")
        if by["excluded"]:
            few = len(by["excluded"])
            said.append("all fault events are excluded" if not said else "the other fault event is excluded" if few == 1 else f"the other {few:,} fault events are excluded")
        meant = " (False alarms count as faults here.)" if self.found.false_in(verdicts.run) else ""
        return (f"If there {'was only one fault' if count == 1 else f'were only {word(count)} faults'}: {'; '.join(said)}.{meant} "
                "With more faults, or in more steps, others may have happened.")

    def named(self, run):
        """The faults and the false alarms of a run, in words."""
        times = {1: "", 2: " (twice)"}
        faults = [name + times.get(count, f" ({word(count)} times)") for name, count in self.found.faults_in(run).items()]
        return listing(faults + [f"the false alarm {it}" for it in self.found.false_in(run)]) or "no fault"

    # What doesn't fit together.

    def warnings(self):
        found = self.found
        rely = "so don't rely on this page."
        said = [f"The replay of a run says {it.first() or 'nothing'}, {rely}" for it in found.replayed if it.kind != "ACCEPTED" and not it.is_stopped]
        drawn = found.drawn
        if drawn and drawn.kind == "EXPLAINED" and found.replayed[0].kind == "ACCEPTED" and found.replayed[0].numbers != drawn.numbers:
            said.append(f"The replay counts {plural(found.replayed[0].numbers[0], 'fault')}, and the answer {drawn.numbers[0]}, {rely}")
        if drawn and drawn.kind == "CHEAPEST" and found.total() != drawn.numbers[0]:
            said.append(f"By the file of costs the run costs {found.total()}, and by the answer {drawn.numbers[0]}, {rely}")
        return self.changed() + said + self.about_proof(rely) + self.late()

    def changed(self):
        """The files that aren't any more what they were."""
        return [f"The {kind} changed while this page was made, so its parts may not fit together. Make it again."
                for (kind, path), before in zip(self.found.files, self.found.digests) if digest(path) != before]

    def about_proof(self, rely):
        verdicts, proof, said = self.found.verdicts, self.found.proof, []
        bound = {"NONE": "any", "MANY": "255"}.get(verdicts.kind) or str((verdicts.numbers or [0])[0] - 1)
        if len(proof) > 1 and proof[0].head[2] != bound:
            said.append(f"The refutation is for K {proof[0].head[2]}, and the answer asks for {bound}, {rely}")
        if len(proof) == 3 and not proof[2].is_stopped and proof[2].first() != "VERIFIED":
            said.append(f"The check of the refutation says {proof[2].first() or 'nothing'}, {rely}")
        return said

    def late(self):
        names = dict.fromkeys(it.words[1] for it in self.found.stopped if it is not self.found.main or it.replies)
        if not names:
            return []
        return [f"The time limit of {self.found.seconds:g} seconds stopped {listing(names)}; what these would have said is missing below. Allow more with --seconds."]

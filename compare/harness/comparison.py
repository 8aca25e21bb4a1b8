"""Runs inputs of chance through both sides, and stops at the first difference."""

import itertools

from harness.shrink import shrink
from harness.sides import OurSide, RustSide

AT_ONCE = 200


class Comparison:
    """Both sides on inputs of one sort, or the Rust's side alone."""

    def __init__(self, inputs, rust_alone):
        self.inputs = inputs
        self.rust = RustSide(inputs.rust_program)
        self.ours = None if rust_alone else OurSide(inputs.our_program)
        self.tally = inputs.tally()

    def rust_answer(self, parts):
        return self.rust.answer(self.inputs.bytes(parts))

    def our_answer(self, parts):
        return self.ours.answer(self.inputs.bytes(parts))

    def differ(self, parts):
        """Whether the two sides answer otherwise. What is not compared makes no difference."""
        expected = self.rust_answer(parts)
        return not self.inputs.not_compared(expected) and expected != self.our_answer(parts)

    def run(self, seeds):
        """Compares the inputs of these seeds; says no after showing the first difference."""
        made = [self.inputs.made(seed) for seed in seeds]
        answers = itertools.repeat(None)
        if self.ours:
            answers = self.ours.answers([self.inputs.bytes(parts) for _, parts in made])
        for seed, (theme, parts), answer in zip(seeds, made, answers):
            expected = self.rust_answer(parts)
            reason = self.inputs.not_compared(expected)
            if reason:
                self.tally.count_left_out(theme, reason)
                continue
            self.tally.count(theme, parts, expected)
            if self.ours and expected != answer:
                self.show_difference(seed, parts)
                return False
        return True

    def show_difference(self, seed, parts):
        """Prints the smallest input found, part by part, and both answers."""
        smallest = shrink(self.inputs, parts, self.differ)
        print(f"The sides differ on the {self.inputs.one} of seed {seed}. Of its {len(parts)} {self.inputs.parts}, "
              "these are enough:\n")
        for line in self.inputs.shown(smallest):
            print(f"  {line}")
        expected, answer = self.rust_answer(smallest), self.our_answer(smallest)
        print(f"\nThe Rust:\n{expected}\nOurs:\n{answer}")
        print("They part here:", parting(expected.splitlines(), answer.splitlines()))

    def show_end(self):
        """Says how many were compared, and why others were not."""
        left_out = self.tally.not_compared
        compared = sum(self.tally.themes.values()) - sum(left_out.values())
        reasons = ", ".join(f"{count} {reason}" for reason, count in sorted(left_out.items())) or "none"
        how = "the same answers on both sides" if self.ours else "the Rust alone"
        print(f"{compared} {self.inputs.plural}, {how}; not compared: {reasons}", flush=True)


def parting(expected, answer):
    """The first line that is not the same, as both sides have it."""
    for place, (left, right) in enumerate(itertools.zip_longest(expected, answer, fillvalue="nothing"), 1):
        if left != right:
            return f"line {place}, the Rust `{left}`, ours `{right}`"
    return "in the ends of lines"


def compare(inputs, seeds, rust_alone, tally):
    """Compares the inputs of these seeds and says how many they were, with a tally where it is asked for; says no
    after showing the first difference."""
    comparison = Comparison(inputs, rust_alone)
    for start in range(0, len(seeds), AT_ONCE):
        if not comparison.run(seeds[start : start + AT_ONCE]):
            return False
    if tally:
        comparison.tally.show(inputs.plural)
    comparison.show_end()
    return True

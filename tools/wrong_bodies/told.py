"""What a check says of functions, and what that shows of a wrong body.

An answer by hand (`proofs/F/Answers.antt`) names its goal, and the steps before it, by the calls, tests and variables of the function's
own body. In another body these may be gone or stand for something else, and then the answer is refused however right that body is.
"""
import re

VERDICT = re.compile(r"^fn (\S+): (.*)$")
# What comes before the verdict on a function, of a goal that is open, and maybe false at values: then no answer proves it.
OPEN = re.compile(
    r"^note: .*(?:\bis not proved that\b.*|`search` found no proof) \(`(\S+)`\)"
    r"(; the facts known there allow values at which this goal is false)?"
)
# An answer that is refused: the folder of its proof, its goal, and why; and a reason that names what the body doesn't have.
REFUSED_ANSWER = re.compile(r"^\./proofs/(\S+)/Answers\.antt:\d+:\d+: error: (?:`([^`\s]+)`: )?(.*(?:\n  .*)*)", re.M)
IS_ABSENT = re.compile(r"\bhas no (?:field )?`")
ANSWER = re.compile(r"^pub (\S+) : goal\.", re.M)
# A goal of a clause, where a contract has several; and what another one is of: a call, loop, sum or type.
CLAUSE_GOAL = re.compile(r"(returns\S*)-clause-(\w+)$")
KIND = re.compile(r"([^-]+)(?:.*?-(requires|init|preserved|smaller)\b)?")
# What the prover names the steps of a body after: tests, branches, ends, indexes, values with a name, calls and sums.
STEP = re.compile(
    r"\b(?:if|else|match|for|while|loop|return|break|continue)\b|=>|&&|\|\||\?|(?<=[\w)\]])\[|\blet (?:mut )?\w+"
    r"|\b[a-z_]\w*!?(?=(?:::<[^()]*>)?\()|(?<= )(?:[=!<>]=|[<>]|(?:[-+*/%^&|]|<<|>>)=?)(?= )"
)
STRING = re.compile(r"b?\"(?:[^\"\\]|\\.)*\"|b?'(?:[^'\\]|\\.)+'")
WORD = re.compile(r"\w+|[^\w\s]")


class Told:
    """What a check says, by the paths of functions. Of a function in a cycle of calls it is said of the cycle's proof."""

    def __init__(self, text: str) -> None:
        self.verdicts: dict[str, str] = {}
        self.open: dict[str, list[str]] = {}
        self.false: dict[str, set[str]] = {}
        self.absent = {(place, goal) for place, goal, why in REFUSED_ANSWER.findall(text) if IS_ABSENT.search(why)}
        goals: list[re.Match[str]] = []
        for line in text.splitlines():
            if found := OPEN.match(line):
                goals.append(found)
            elif found := VERDICT.match(line):
                self.verdicts[found[1]] = found[2]
                self.open[found[1]], self.false[found[1]] = [it[1] for it in goals], {it[1] for it in goals if it[2]}
                goals = []

    def of(self, path: str) -> str:
        """The verdict on a function, with its goals that are open."""
        open_goals = f"; open are {', '.join(self.open[path])}" if self.open.get(path) else ""
        return self.verdicts.get(path, "not checked") + open_goals

    def is_refused(self, path: str, cycle: str | None = None) -> bool:
        """Whether goals of a function are open or answers to them refused, and not only that a proof file names what isn't there, or
        what the function calls."""
        verdict, own = self.verdicts.get(path, ""), modules_of(path, cycle)
        if verdict.startswith("not proved; it stands on") and f"`{own}" in verdict or verdict.startswith("no proof: expected answers"):
            return True
        return bool(self.open.get(path)) and not any(place == folder_of(path, cycle) for place, _ in self.absent)

    def goals(self, path: str, cycle: str | None) -> list[str]:
        """The goals of a function that are open, or the answers to them refused."""
        verdict = self.verdicts.get(path, "")
        found = re.search(r"did not prove (`[^`]+`(?:, `[^`]+`)*)", verdict)
        refused = re.findall(rf"`{re.escape(modules_of(path, cycle))}Answers\.([^`]+)`", verdict)
        return [*refused, *(re.findall(r"[^`, ]+", found[1]) if found else []), *self.open.get(path, [])]

    def is_by_answer_alone(self, path: str, cycle: str | None, answered: set[str], has_own_steps: bool) -> bool:
        """Whether a body is refused by answers that may no longer fit, so that one that means the same might be refused too. It isn't
        where a goal is false, or of a clause or a kind of step that no answer is to; nor where the body takes the steps of the function's
        own, with other values, and no answer names what isn't there."""
        goals = set(self.goals(path, cycle))
        kinds = set(map(kind, answered))
        if not answered or self.false.get(path, set()) & goals or any(kind(it) not in kinds for it in goals - answered):
            return False
        return not has_own_steps or any(place == folder_of(path, cycle) for place, _ in self.absent)


def kind(goal: str) -> tuple[str | None, ...]:
    """The clause that a goal is of, or else what it is about."""
    if goal == "returns" or goal.startswith("returns-"):
        clause = CLAUSE_GOAL.match(goal)
        return ("returns", clause[2] if clause else None)
    found = KIND.match(goal)
    return found.groups() if found else (goal,)


def has_steps_of(text: str, other: str) -> bool:
    """Whether a function takes the steps of another one in their order, with other values, and doesn't only turn words round."""
    return steps_of(text) == steps_of(other) and sorted(WORD.findall(text)) != sorted(WORD.findall(other))


def steps_of(text: str) -> list[str]:
    return STEP.findall(STRING.sub("", text))


def modules_of(path: str, cycle: str | None) -> str:
    """What the names of the modules of a function's proof begin with, or of that of its cycle of calls."""
    whole = "Rattle." + path.replace("::", ".proofs.", 1).replace("::", ".") + "."
    return whole[: whole.rindex(".", 0, -1)] + f".+{cycle}." if cycle else whole


def folder_of(path: str, cycle: str | None) -> str:
    """The folder of a function's proof, or of that of its cycle of calls, below that of the crate's."""
    return modules_of(path, cycle).partition(".proofs.")[2].rstrip(".").replace(".", "/")

"""The options that say what a game counts in which a side failed, of the tally and of exports."""
from __future__ import annotations

from ..config.arguments import Arguments
from ..model import Plan
from ..output import Mistake
from ..stats.endings import Rule, Rules


def rules_of(arguments: Arguments, plan: Plan) -> Rules:
    """Returns the rules that the options ask for. A late side has that of an abandoned one, unless
    it has its own."""
    abandoned = arguments.last("--abandoned", rule_of) or Rule.LOSES
    late = arguments.last("--late", rule_of)
    if late and plan.is_direct:
        raise Mistake(
            "which side was late is known only where `between` stands: leave out --late, and "
            "--abandoned is for all"
        )
    return Rules(abandoned, late or abandoned)


def rule_of(name: str, value: str) -> Rule:
    """Returns the rule that an option names."""
    try:
        return Rule(value)
    except ValueError:
        raise Mistake(f"{name} needs half, out or loses after it, and not '{value}'") from None

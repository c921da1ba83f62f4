"""Says whether a wrong body has another form than the right one, and makes a right body of that form where it can.

Goals and steps are named after the code. A branch, a loop, a `?` or another condition changes some of these names, and then the answers
in `proofs/` for the old names aren't used. So a function whose proof has files may fail for its form alone.
"""
import re
from collections import Counter
from os.path import commonprefix

from judge.sources import Hunk, blanked, placed

CONTROL = re.compile(r"\b(?:if|match|while|for|loop|return|break|continue)\b|\?(?!\w)|&&|\|\|")
CONDITION = re.compile(r"\b(?:if|while)\b(?!\s+let\b)([^{}]*)\{")
CALL = re.compile(r"\b([a-z]\w*)(?:::<[^;]*?>)?\(")
NAMED_CALL = re.compile(r"\blet (?:mut )?\w+ = (?:&|mut |[\w.]+\.)*(\w+)\([^;]*\);")
ARGUMENTS = re.compile(r"(?<=\w)\((?:[^()]|\([^()]*\))*\)")
LEAVES = {"return", "break", "continue"}
LOOPS = {"for", "while", "loop"}
HEAD = re.compile(r"(?:'\w+:\s*)?(?:if|else|while|for|loop|match|unsafe)\b")  # a statement that ends with a block
BLOCK = re.compile(r"\b(?:if|else|while|for|loop|unsafe)\b[^{}]*$|(?:=>|=|\|)\s*$")  # what comes before the `{` of a block
ERROR = re.compile(r"->\s*Result<[^{}]*,\s*(\w+)>\s*(?:requires|ensures|where|\{)")
TURNED = {"<": ">", ">": "<", "<=": ">=", ">=": "<=", "==": "==", "!=": "!="}


def form(text):
    """How often each word of control occurs in the text, and the words of each condition without arguments. Steps are named after
    these."""
    text = blanked(text)
    conditions = [re.findall(r"\w+", ARGUMENTS.sub("", it)) for it in CONDITION.findall(text)]
    return Counter(CONTROL.findall(text)), Counter(map(tuple, conditions))


def taken_names(crate, function, hunks):
    """The calls that these changes add before a call of the same name, if the handwritten part of the proof cites that call. The added
    calls take its name, unless a `let` names them."""
    text, proof = (crate / function.file).read_text(), function.written_proof(crate / "proofs")
    for hunk in hunks:
        old = text[hunk.start : hunk.end]
        same = len(commonprefix([old, hunk.new]))
        left = len(commonprefix([old[same:][::-1], hunk.new[same:][::-1]]))
        added, behind = blanked(hunk.new)[same : len(hunk.new) - left], blanked(text)[hunk.start + same : function.end]
        named = {it.start(1) for it in NAMED_CALL.finditer(added)}
        more = Counter(CALL.findall(blanked(hunk.new))) - Counter(CALL.findall(blanked(old)))
        for call in (it for it in CALL.finditer(added) if it[1] in more):
            is_cited = re.search(rf"\bc\.{call[1]}\b(?!-)", proof) and re.search(rf"\b{call[1]}\(", behind)
            yield from [call[1]] if is_cited and call.start(1) not in named else []


def change_of_form(crate, function, hunks):
    """The words of control that these changes of the function add or remove, with `condition` for a changed condition, and `call` for a
    call that takes the name of another call."""
    text = (crate / function.file).read_text()
    hunks = [it for it in hunks if function.holds(it)]
    was, conditions = form(text[function.body : function.end])
    now, others = form(placed(text[: function.end], hunks)[function.body :])
    calls = {"call" for _ in taken_names(crate, function, hunks)}
    return {*(now - was), *(was - now), *(["condition"] if conditions != others else []), *calls}


def statement(text, body, at):
    """The bounds of the innermost statement or arm of a `match` around a place. `body` is where the function's body begins."""
    stack, i = [["block", body]], body
    while i < at:
        top, c = stack[-1], text[i]
        if c in "{([":
            head = text[top[1] : i]
            kind = "other" if c != "{" else "arms" if re.search(r"\bmatch\b[^{}]*$", head) else "block"
            is_block = kind != "block" or not head.strip() or BLOCK.search(head)
            stack.append([kind if is_block else "other", i + 1])
        elif c in "})]":
            kind, _ = stack.pop()
            ends = kind in ("block", "arms") and HEAD.match(text[stack[-1][1] : i].lstrip())
            ends = ends and stack[-1][0] == "block" and not re.match(r"\s*(?:else\b|[.?;])", text[i + 1 :])
            if ends or stack[-1][0] == "arms" and kind == "block":
                stack[-1][1] = i + 1
        elif c == ";" and top[0] == "block" or c == "," and top[0] == "arms":
            top[1] = i + 1
        elif text.startswith("=>", i) and top[0] == "arms":
            top[1] = i + 2
            i += 1
        i += 1
    kind, low = next(it for it in reversed(stack) if it[0] in ("block", "arms"))
    low += len(text[low:at]) - len(text[low:at].lstrip())
    return low, end_of(text, kind, low)


def end_of(text, kind, low):
    """Where the statement or the arm that begins here ends."""
    depth, is_let = 0, not HEAD.match(text[low:])
    for i in range(low, len(text)):
        depth += (text[i] in "{([") - (text[i] in "})]")
        if depth < 0 or depth == 0 and text[i] == "," and kind == "arms":
            return i
        if depth == 0 and text[i] == ";":
            return i + 1
        if depth == 0 and text[i] == "}" and not is_let and not re.match(r"\s*(?:else\b|[.?;])", text[i + 1 :]):
            return i + 1
    return len(text)


def condition_of(new):
    """The condition of the branch that a change adds, if it uses no name that the change binds, or else one that never holds."""
    test = re.search(r"\bif\b(?!\s+let\b)\s*([^{}]*?)\s*\{", blanked(new))
    bound = re.findall(r"\blet\s+(?:mut\s+)?(\w+)|\b[A-Z]\w*\((\w+)\)\s*=", new)
    is_free = test and not {name for names in bound for name in names} & {*re.findall(r"\w+", test[1])}
    return new[test.start(1) : test.end(1)] if is_free else "1 > 2"


def with_branch(text, old, test):
    """A branch with the statement in both of its parts."""
    let, end = re.match(r"let\s[^=]*=\s", old), re.search(r"\s+else\s*\{[^{}]*\};$|;$", old)
    if not let or not end:
        return f"if {test} {{ {text} }} else {{ {text} }}"
    value = text[let.end() : end.start()]
    return f"{text[: let.end()]}if {test} {{ {value} }} else {{ {value} }}{text[end.start() :]}"


def with_condition(text, old):
    """The statement with its condition, or else its value, written in other ways with the same meaning."""
    test = re.match(r"(?:if|while)\b(?!\s+let\b)\s*([^{}]*?)\s*\{", old) or re.match(r"let\s[^=]*=\s(.*);$", old, re.S)
    start, end = test.span(1) if test else (0, len(old.rstrip(";")))
    was = text[start:end]
    sides = re.fullmatch(r"(.*?) (<|>|<=|>=|==|!=) (.*)", was, re.S)
    turned = sides and not re.search(r"&&|\|\|", was) and f"{sides[3]} {TURNED[sides[2]]} {sides[1]}"
    return [f"{text[:start]}{it}{text[end:]}" for it in (f"({was}) || 1 > 2", turned or f"({was}) == true")]


def place_of(whole, hunk, words):
    """Where the change begins. It is after the old text only if that is a whole statement and the change adds a statement after it."""
    old = whole[hunk.start : hunk.end].rstrip()
    common = len(commonprefix([old, hunk.new]))
    follows = old.endswith((";", "{", "}")) and words & {*LEAVES, *LOOPS, "?"}
    at = hunk.start + (common if follows else min(common, len(old) - 1))
    return at + len(whole[at:]) - len(whole[at:].lstrip())


def right_bodies(crate, function, edit):
    """Ways to write the function, as hunks, with the same meaning and with the form that the edit gives it: the edit's `right:` lines,
    or else what can be made. If the edit adds a `return`, `break` or `continue` at the outermost level, the right body returns the value
    of the rest of the body there. Elsewhere the right body gets a branch that is never taken."""
    if edit.right:
        return [edit.right]
    whole = (crate / function.file).read_text()
    text, words = blanked(whole), change_of_form(crate, function, edit.hunks)
    if "call" in words:
        return []
    hunks = [it for it in edit.hunks if function.holds(it)]
    hunk = next((it for it in hunks if change_of_form(crate, function, [it])), hunks[0])
    low, end = statement(text, function.body, place_of(whole, hunk, words))
    own, old = whole[low:end], text[low:end]
    is_outer = text[function.body : low].count("{") == text[function.body : low].count("}")
    rest = whole[low : function.end - 1].rstrip()
    test = condition_of(hunk.new[len(commonprefix([whole[hunk.start : hunk.end], hunk.new])) :])
    error = ERROR.search(text[function.start : function.body])
    if words & LEAVES:
        made = [f"if {test} {{ return {{ {rest} }}; }} {own}" if is_outer else f"if 1 > 2 {{ unreachable!() }} {own}"]
    elif words & LOOPS:
        made = [f"for _ in 0u8..2 {{}} {own}"]
    elif "?" in words:
        made = [f"Ok::<u8, {error[1]}>(0)?; {own}" if error else f"Some(0u8)?; {own}"]
    elif words & {"if", "match"}:
        made = [with_branch(own, old, test)]
    else:
        made = with_condition(own, old)
    is_arm = text[:low].rstrip().endswith("=>") and not own.startswith("{")
    return [(Hunk(function.file, low, end, f"{{ {it} }}" if is_arm else it),) for it in made]

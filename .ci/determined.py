"""Holds a determined-theorem to the contract that it speaks of. Texts are compared; what a definition means is not looked at.

A term is a word, or a tuple of terms: a function and what it is applied to; x.f is .f applied to x. In a contract the words of two runs
begin with $: $x and $x now are what a parameter is and what it lends, $1 result and $1 x after now what the first run hands back and
leaves, $2 the second, $ghost x a ghost member of the trait that states the contract. Where an `impl` says what it is, that stands for it.
"""
import re

from reading import theorem, used


def nested(text):
    """The words of a text, in lists as its round brackets nest them. A field that is written tight, as in x.f and (g x).f, makes a list too."""
    stack = [[]]
    for word in re.findall(r'\(|\)(?:\.[^.,\s()]+)*|,|[^,\s()]+', text):
        if word == '(':
            stack.append([])
            continue
        base, *fields = re.findall(r'^[^.]+|\.[^.]+', word) if re.match(r'\)|[a-z_«][^.]*\.', word) else [word]
        base = stack.pop() if base == ')' and len(stack) > 1 else base.strip('«»')
        for field in fields:
            base = [base, field]
        stack[-1].append(base)
    return stack[0]


def apart(words, sign):
    """The words between the signs."""
    parts = [[]]
    for word in words:
        parts.append([]) if word == sign else parts[-1].append(word)
    return parts


def term(words, known):
    """The words as a term, each for what it is known as; ((f x) y) is f x y."""
    if isinstance(words, str):
        # (T.m is a ghost member of what stands for T)
        return known.get(words, f'$ghost {words}' if re.fullmatch(r'[A-Z]\w*(?:\.[A-Z]\w*)*\.[a-z_]\w*', words) else words)
    first, *rest = [term(word, known) for word in words] or ['']
    return ((first if isinstance(first, tuple) else (first,)) + tuple(rest)) if rest else first


def equations(words, known):
    """What stands joined by ×: of an equation its two sides, of another fact one."""
    while len(words) == 1 and isinstance(words[0], list):
        words = words[0]
    if any(sign in words for sign in ('→', '⊎', '↔')):
        return [(term(words, known),)]
    if '×' in words:
        return [e for part in apart(words, '×') for e in equations(part, known)]
    return [tuple(term(side, known) for side in apart(words, '≡'))]


# What is said of a reference: as it was passed and as it is afterwards, what stands there, and where that is.
REFERENCE = {'.entry': '', '.exit': ' after', '.now': ' now', '.old': ' now', '.new': ' after now', '.ref_ptr': ' ptr'}


def seen(t, run):
    """A term of a contract, in one of the two runs: what is lent or handed back is one word."""
    if isinstance(t, str):
        return t.replace('$ ', f'${run} ')
    head, *rest = [seen(part, run) for part in t]
    while rest and isinstance(head, str) and head.startswith('$') and rest[0] in REFERENCE:
        word = REFERENCE[rest.pop(0)]
        head = (f'${run} {head[1:]}' if word.startswith(' after') else head) + word
    return (head, *rest) if rest else head


def promised(function, uses, own, run):
    """The equations of a contract, in one of the two runs, by what the file that states it uses; an `impl` says its ghost members by what its
    own file uses. Another fact in it is passed over: a theorem without it says more."""
    found = []
    ghosts = {name: term(nested(body), own) if body.strip() else f'$ghost {name}' for name, body in function.ghosts.items()}
    known = uses | ghosts | {p: f'${p}' for p in function.stated.parameters} | {'result': '$ result'}
    for word, _, text in function.contract:
        if word == 'ensures':
            found += [seen(e, run) for e in equations(nested(text[1:-1]), known) if len(e) == 2]
    return found


def given(t):
    """What a term speaks of, of all that the first run hands back or leaves."""
    if isinstance(t, str):
        return {t[3:]} if t.startswith('$1 ') else set()
    return set().union(*map(given, t))


def said(t, contract, meant):
    """Whether a term is the contract's. A variable means one thing all through: something of the runs, or a number."""
    if isinstance(t, tuple):
        return isinstance(contract, tuple) and len(t) == len(contract) and all(said(a, b, meant) for a, b in zip(t, contract))
    if t in meant and isinstance(contract, str) and re.match(r'\$|\d', contract):
        meant[t] = meant[t] or contract
    return meant.get(t, t) == contract


def shown(t):
    """A term as a reader of the files knows it."""
    return re.sub(r'^\$|^[^.\s]\S*\.', '', t) if isinstance(t, str) else f'({" ".join(map(shown, t))})'


def differs(function, uses, own, text, name):
    """What keeps a theorem from saying: of any two runs that the contract allows, all that is handed back and left is equal."""
    outside, type_ = theorem(text, name)
    first, *steps = apart(nested(type_), '→')
    variables = [word for group in nested(outside) + first if isinstance(group, list) for word in apart(group, ':')[0]]
    known = {word: path for word, path in used(text).items() if word not in variables}
    known |= {word: term(nested(body), known) for word, body in re.findall(r'^ *abbrev (\S+) :.*\n *\1 = (.*)$', text, re.M)}
    *hypotheses, conclusion = [equations(step, known) for step in steps] or [[]]
    hypotheses, contract = sum(hypotheses, []), promised(function, uses, own, 1) + promised(function, uses, own, 2)
    if len(hypotheses) != len(contract):
        return f'it supposes {len(hypotheses)} equations, and the contract allows two runs by {len(contract)}'
    meant = dict.fromkeys(variables)
    for ours, theirs in zip(hypotheses, contract):
        if not said(ours, theirs, meant):
            return f'it supposes {" ≡ ".join(map(shown, ours))}, and the contract says {" ≡ ".join(map(shown, theirs))}'
    equal = {(f'$1 {what}', f'$2 {what}') for what in given(tuple(contract))}
    if {tuple(map(meant.get, e)) for e in conclusion} != equal:
        return 'it does not conclude that all which the contract speaks of is equal: ' + ', '.join(sorted(given(tuple(contract))))
    return ''


def fixes(fact, name):
    """Whether an equation of a fact says outright what a name stands for."""
    sides = [e for e in equations(nested(fact), {name: '$1 result'}) if len(e) == 2]
    return any('$1 result' in e and set() in map(given, e) for e in sides)


def silent(function):
    """What no equation of a contract speaks of, and so is left open: the result, or what a buffer holds afterwards."""
    spoken = given(tuple(promised(function, {}, {}, 1)))
    owed = {'result': 'its result'} if function.hands_back else {}
    owed |= {f'{p} after now': f'what `{p}` holds afterwards' for p in function.written}
    return [what for start, what in owed.items() if not any(word.startswith(start) for word in spoken)]

"""What the prover said about functions: which it refuses, and by which clauses."""

import re

NOTE = re.compile(r'note: \S+:\d+:\d+: (.*?) \(`(\S+)`\)')
IN_PROOF = re.compile(r'(?:\./)?proofs/(\S+)/(?:Answers|Invariants|Proof)\.antt:\d+:\d+: error: (.*)')
LEFT = re.compile(r'note: `(\S+)` of proofs/(laws/\S+)/Answers\.antt must prove: ')
VERDICT = re.compile(r'fn (\S+): (.*)')
LOST_NAME = re.compile(r'is not in scope|has no field|is no name|has no `|operand is missing|expected the end')


# The goals that are no clause of the function itself, by the form of their names, and what the lines say about them.
OTHERS = [(re.compile(form), words) for form, words in (
    (r'invariant_of-', 'invariant of the type'),
    (r'overflow_', 'no overflow'),
    (r'slice_bounds-|index_bounds-', 'within bounds'),
    (r'(\w+)-requires', r'requires of \1'),
    (r'.*-smaller', 'end of the loop'),
    (r'.*-(?:init|preserved)', 'invariant of the loop'))]


def clause_of(goal):
    """A goal in the words of the lines `refused-by:`."""
    if goal.startswith('returns'):
        return goal.partition('clause-')[2] or 'its clause'
    for form, words in OTHERS:
        found = form.match(goal)
        if found:
            return found.expand(words)
    return goal


def short_name(name):
    """Returns the short form of a whole name that the prover writes: without modules, and with `law` if it is one."""
    parts = name.split('::')
    if 'laws' in parts[:-1]:
        return 'law ' + parts[-1]
    return '::'.join(parts[next((place for place, part in enumerate(parts) if part[:1].isupper()), -1):])


def goals_in(said):
    """The goals that an error in a proof names: the one in which it is, and those that depend on what it refuses. If a proof
    only names what a change removed, or is left out, no goal was tried."""
    if LOST_NAME.search(said) or 'depends on `left_out`' in said:
        return []
    left = re.search(r'(?:was|were) not checked: (.*)', said)
    if left:
        return [one.split(' (via ')[0] for one in left[1].split(', ')]
    return re.findall(r'^`([^`]+)`', said)


def refusals(said):
    """The clauses by which each function is refused, by its whole name: none if no clause was tried. A function that is
    refused only because it calls one that is not proved is left out."""
    refused, noted, in_proofs = {}, [], {}
    for line in said.splitlines():
        note, proof, verdict = NOTE.match(line), IN_PROOF.match(line), VERDICT.match(line)
        if note:
            noted.append(note[2])
        elif proof:
            in_proofs.setdefault(proof[1].replace('/', '::'), []).extend(goals_in(proof[2]))
        elif verdict:
            goals = noted + in_proofs.get(verdict[1].partition('::')[2], [])
            noted = []
            if re.match(r'not proved|no proof(?!: it calls)', verdict[2]):
                refused[verdict[1]] = sorted({clause_of(goal) for goal in goals})
    for law, goals in left_of_laws(said).items():
        name = next((one for one in refused if one.partition('::')[2] == law), None)
        if name:
            refused[name] = sorted({*refused[name], *map(clause_of, goals)})
    return refused


def left_of_laws(said):
    """The goals of laws that remain to be proved: none if a lemma only names what a change removed. If an attribute names
    the lemma that proves a goal, and that is refused, the prover tries nothing else, and says no more about the goal."""
    left = {}
    for goal, law in LEFT.findall(said):
        left.setdefault(law.replace('/', '::'), []).append(goal)
    return {} if any(LOST_NAME.search(line) for line in said.splitlines() if re.match(r'(?:\./)?proofs/\S+: error', line)) else left


def right_but_for_callees(said):
    """The functions, by their whole names, that are not proved only because they call some that are not: all their goals are
    tried, and none is left."""
    lines = said.splitlines()
    faulty = {found[1].replace('/', '::') for found in map(IN_PROOF.match, lines) if found}
    waiting = set(re.findall(r'`search` has not tried the goals of `(\S+)`', said))
    calling = {found[1] for found in map(VERDICT.match, lines) if found and found[2].startswith('not proved; it calls ')}
    return {name for name in calling - waiting if name.partition('::')[2] not in faulty and not refusals(said).get(name)}


def proved(said):
    """The functions that are proved, by their whole names."""
    return [verdict[1] for verdict in map(VERDICT.match, said.splitlines()) if verdict and verdict[2] == 'proved']


def unread(said):
    """Why a check tried no contract: the line that says why the prover cannot read what was changed, or None."""
    for line in said.splitlines():
        if re.match(r'(?:\./)?(?:src|specs)/\S+:\d+:\d+: error', line) or line.startswith(('error', 'rattle: error')):
            return 'it is not read: ' + line[:200]
    return None if VERDICT.search(said) else 'no verdict'

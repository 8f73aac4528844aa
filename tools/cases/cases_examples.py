"""Call files on steps in the manner of the Alethe document's rules, all accepted. Rows are as in cases_rules.py, with the
rule first."""
from pools.formulas import step

EXAMPLES = [
    (1, 'join-forall', '(= (forall (i) (forall (j) {0})) (forall (i j) {0}))'.format('(=> (P i) (Q j))')),
    (1, 'join-exists', '(= (exists (i) (exists (j k) {0})) (exists (i j k) {0}))'.format('(and (P i) (Q j) (R k))')),
    (2, 'one-unused', '(= (forall (i j) (P i)) (forall (i) (P i)))'),
    (2, 'two-unused', '(= (exists (i j k) (not (P j))) (exists (j) (not (P j))))'),
    (2, 'all-unused', '(= (exists (i) (forall (j) (P j))) (forall (j) (P j)))'),
    (3, 'clause-of-implies', '(or (not (forall (i) (=> (P i) (Q i)))) (forall (i) (or (not (P i)) (Q i))))'),
    (3, 'clause-of-and', '(or (not (forall (i) (and (P i) (Q i)))) (forall (i) (Q i)))'),
    (3, 'clause-of-equals', '(or (not (forall (i j) (= (P i) (Q j)))) (forall (j i) (or (not (Q j)) (P i))))'),
    (3, 'clause-of-ite', '(or (not (forall (i) (ite (P i) (Q i) (R i)))) (forall (i) (or (P i) (R i))))'),
    (3, 'clause-with-inner-forall',
     '(or (not (forall (i) (or (P i) (forall (j) (and (Q j) (R i)))))) (forall (i j) (or (P i) (Q j))))'),
    (3, 'clause-without-inner-variable',
     '(or (not (forall (i) (or (P i) (forall (j) (and (Q j) (R i)))))) (forall (i) (or (P i) (R i))))'),
    (3, 'clause-with-negated-exists',
     '(or (not (forall (i) (not (exists (j) (and (P i) (Q j)))))) (forall (i j) (or (not (P i)) (not (Q j)))))'),
    (3, 'clause-with-exists',
     '(or (not (forall (i) (=> (P i) (exists (j) (R j))))) (forall (i) (or (not (P i)) (exists (j) (R j)))))'),
    (4, 'forall-over-and', '(= (forall (i) (and (P i) (Q i) p)) (and (forall (i) (P i)) (forall (i) (Q i)) (forall (i) p)))'),
    (4, 'exists-over-or', '(= (exists (i j) (or (P i) (Q j))) (or (exists (i j) (P i)) (exists (i j) (Q j))))'),
    (5, 'forall-over-or', '(= (forall (i j) (or (P i) (Q j) p)) (or (forall (i) (P i)) (forall (j) (Q j)) p))'),
    (5, 'exists-over-and',
     '(= (exists (i j k) (and (P i) (= j k) p)) (and (exists (i) (P i)) (exists (j k) (= j k)) p))'),
    (6, 'forall-over-ite', '(= (forall (i) (ite p (P i) (Q i))) (ite p (forall (i) (P i)) (forall (i) (Q i))))'),
]


def examples():
    for rule, name, text in EXAMPLES:
        yield step(rule, 'example-' + name, text)


COLLECTIONS = {'examples': [examples]}

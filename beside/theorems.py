"""A case and its answer as a theorem, "the definition's whole answer is this list of numbers", that the prover has to compute."""
import os, re, shutil, struct, subprocess

from lines import ROOT, EARLY, hexes, moved, refusal, sheet, slot_lists, ask, Words


# ---- antt terms


def numbers(values):
    return '(' + ''.join('%d ∷ ' % v for v in values) + '[])'


def floats(values):
    return '(' + ''.join('f 0x%x ∷ ' % v for v in values) + '[])'


def f(value):
    return '(f 0x%x)' % value


def particles(ps):
    return '(' + ''.join('particle %s %s %s %s %d ∷ ' % (f(p[0]), f(p[1]), f(p[2]), f(p[3]), p[4]) for p in ps) + '[])'


def pairs(values):
    return [b for v in values for b in struct.pack('<Q', v)]


def slots_input(ps, alpha, forces, draws, slots):
    entries, values, links = slot_lists(forces, lambda: 0)
    return 'sheet_input %s 0x%x %s %s %s %s (replicate %d 7)' % (numbers(sheet(ps)), alpha, numbers(entries), floats(values), numbers(links), floats(draws), slots * 8)


# ---- a case and its answer: the term, and the numbers it has to be


def work(number, slots):
    return [7 if number in EARLY else 0] * (slots * 8)


def tree_case(t, answer):
    slots, ps = t.number(), t.particles()
    number, place = refusal(answer)
    term = 'tree_numbers %s %d %d' % (numbers(sheet(ps)), slots, len(ps))
    if number:
        return term, [number, place, 0, 0, 0, 0, 0] + [9] * (4 * slots + len(ps)) + work(number, slots)
    head, rows, chains = answer.split('|')
    head = head.split()
    rows = [int(v) for row in rows.split() for v in row.split(',')]
    extent = [int(w, 16) for w in head[1:5]]
    return term, [0, 0, int(head[5])] + extent + rows + [0] * (4 * slots - len(rows)) + [int(c) for c in chains.split()] + work(0, slots)


def visit_case(t, answer):
    ps = t.particles()
    skips = [t.number() for _ in range(t.number())]
    if refusal(answer)[0]:
        return None
    first, last = answer[2:].split('|')
    return 'visit_numbers %s %d %s' % (floats([v for p in ps for v in p[:2]]), len(ps), numbers(skips)), [int(w) for w in (first + last).split()]


def force_case(t, answer):
    slots, force, alpha, ps, draws = t.number(), t.force(), t.float(), t.particles(), t.list()
    number, place = refusal(answer)
    if force[0] == 'E':
        term = 'list_numbers (center_result %s %s %s) %s' % (f(force[1]), f(force[2]), f(force[3]), particles(ps))
        return term, [number, place] + [v for p in (ps if number else moved(ps, answer)) for v in p]
    speeds = [v for p in ps for v in p[2:4]] if number else hexes(answer.split('|')[1])
    counts = [0, 0] if number else [int(w) for w in answer.split('|')[0].split()[1:3]]
    lent = '(force_input %s %s %s (replicate %d 7))' % (floats([v for p in ps for v in p[:2]]), numbers([1, 2, 3] + pairs([v for p in ps for v in p[2:4]]) + [4]), floats(draws), slots * 8)
    if force[0] == 'M':
        run = 'many_body_result l %s %s' % (floats(force[1]), f(alpha))
    elif force[0] == 'C':
        run = 'collide_result l %s %s %d' % (floats(force[3]), f(force[1]), force[2])
    else:
        run = 'link_result l %s %s %s %d %s' % (numbers([e for link in force[2] for e in link]), floats(force[3]), floats(force[4]), force[1], f(alpha))
    return '(let l = %s in force_numbers l (%s))' % (lent, run), [number, place] + counts + [1, 2, 3] + pairs(speeds) + [4] + work(number, slots)


def move_case(t, answer):
    decay, ps = t.float(), t.particles()
    number, place = refusal(answer)
    return 'list_numbers (closing_result %s) %s' % (f(decay), particles(ps)), [number, place] + [v for p in (ps if number else moved(ps, answer)) for v in p]


def tick_case(t, answer):
    slots, settings = t.number(), [t.float() for _ in range(4)]
    ps, forces, draws = t.particles(), [t.force() for _ in range(8)], t.list()
    number, place = refusal(answer)
    head = answer.split('|')[0].split()
    counts = [0, 0, settings[0]] if number else [int(head[1]), int(head[2]), int(head[3], 16)]
    lent = slots_input(ps, settings[0], forces, draws, slots)
    term = 'tick_numbers (%s) (settings %s %s %s)' % (lent, f(settings[1]), f(settings[2]), f(settings[3]))
    return term, [number, place] + counts + sheet(ps if number else moved(ps, answer)) + work(number, slots)


def step_case(t, answer):
    slots, settings = t.number(), [t.float() for _ in range(5)]
    budget = t.number()
    ps, forces, draws = t.particles(), [t.force() for _ in range(8)], t.list()
    number, place = refusal(answer)
    lent = slots_input(ps, settings[0], forces, draws, slots)
    term = 'step_numbers (%s) (settings %s %s %s) %s %d' % (lent, f(settings[1]), f(settings[2]), f(settings[3]), f(settings[4]), budget)
    if number:
        return term, [number, place, 0, 0, 0, 0, settings[0]] + sheet(ps) + work(number, slots)
    head = answer.split('|')[0].split()
    counts = [int(w) for w in head[1:5]] + [int(head[5], 16)]
    return term, [int(head[6]), int(head[7])] + counts + sheet(moved(ps, answer)) + work(0, slots)


def floor_case(t, answer):
    value = t.float()
    number, place = refusal(answer)
    z = 0 if number else int(answer.split()[1])
    return 'floor_numbers %s' % f(value), [number, place, int(z < 0), abs(z)]


def root_case(t, answer):
    return '(root_bits 0x%x ∷ [])' % t.float(), [int(answer.split()[1], 16)]


def list_case(t, answer):
    ps = t.particles()
    number, _ = refusal(answer) if len(ps) <= 512 else (1, 0)
    if number:
        text = 'refused %d\n' % number
    elif not ps:
        text = 'empty\n'
    else:
        head, rows, chains = answer.split('|')
        text = 'extent ' + ' '.join('%d' % struct.unpack('<d', struct.pack('<Q', int(w, 16)))[0] for w in head.split()[1:5]) + '\n'
        left = chains.split()
        for row in rows.split():
            level, quadrant, kind, length = row.split(',')
            text += ' '.join([level, quadrant, ' IL'[int(kind)]] + left[: int(length)]) + '\n'
            left = left[int(length) :]
    return 'lister %s' % numbers(sheet(ps)), list(text.encode())


CASES = {'list': list_case, 'tree': tree_case, 'visit': visit_case, 'force': force_case, 'move': move_case, 'tick': tick_case, 'step': step_case, 'floor': floor_case, 'root': root_case}

HEAD = '''use Rattle.std.specs.Prelude.{◌≡◌, refl, Bool, true, false, cond, ◌&&◌, ◌||◌, List, [], ◌∷◌, ◌++◌, map, reverse, ℕ, suc, ◌*◌, eqb, ℤ, pos, negsuc, length, replicate, Float}
use Rattle.rules.specs.declared.Particle.{Particle}
use Rattle.rules.specs.declared.Visit.{Visit}
use Rattle.rules.specs.Outcome.{Outcome, done, refused, refusal_of, work_after}
use Rattle.rules.specs.Number.{float_of, bits_of}
use Rattle.rules.specs.Floor.{floor_answer}
use Rattle.rules.specs.Root.{root_bits}
use Rattle.rules.specs.Refusal.{most_particles}
use Rattle.rules.specs.Sheet.{particle}
use Rattle.rules.specs.Tree.{Tree, none, leaf, node, tree_of}
use Rattle.rules.specs.Walk.{Entry, internal, tip, Counted, counted, after, continue_if, walk, parent_last}
use Rattle.rules.specs.Flow.{Flow}
use Rattle.rules.specs.Calls.{TreeInput, tree_result, tree_answer, rows_after, chains_after, tree_work_after, ForceInput, force_answer, buffer_after, many_body_result, collide_result, link_result, center_result, closing_result, particles_after}
use Rattle.rules.specs.declared.Settings.{Settings}
use Rattle.rules.specs.Tick.{SheetInput, settings, tick_answer, sheet_after_tick, alpha_after_tick, work_after_tick, step_answer, sheet_after_step, alpha_after_step, work_after_step}
use Rattle.rules.specs.Listing.{lister}
use Rattle.rules.specs.Opened.{opened}

f : ℕ → Float
f b = float_of b

equals : List ℕ → List ℕ → Bool
equals [] [] = true
equals [] (b ∷ bs) = false
equals (a ∷ l) [] = false
equals (a ∷ l) (b ∷ bs) = eqb a b && equals l bs

integer : ℤ → List ℕ
integer (pos n) = 0 ∷ n ∷ []
integer (negsuc n) = 1 ∷ suc n ∷ []

floor_numbers : Float → List ℕ
floor_numbers x = let a = floor_answer x in a.refusal.number ∷ a.refusal.place ∷ integer a.value

tree_numbers : List ℕ → ℕ → ℕ → List ℕ
tree_numbers sheet slots n =
    let l : TreeInput = record { sheet = sheet; rows = replicate (slots * 4) 9; chains = replicate n 9; work = replicate (slots * 8) 7 } in
    let o = tree_result most_particles l in
    let a = tree_answer l o in
    let e = a.extent in
    a.refusal.number ∷ a.refusal.place ∷ a.nodes ∷ bits_of e.x0 ∷ bits_of e.y0 ∷ bits_of e.x1 ∷ bits_of e.y1 ∷ (rows_after l o ++ chains_after l o ++ tree_work_after l o)

has : List ℕ → ℕ → Bool
has [] n = false
has (m ∷ l) n = eqb m n || has l n

-- the tree with its nodes numbered parent first, from n on, and the next number
numbered : {A : Type 0} → ℕ → Tree A → Tree ℕ × ℕ
numbered n none = (none, n)
numbered n (leaf a is) = (leaf n is, suc n)
numbered n (node a t0 t1 t2 t3) =
    let r0 = numbered (suc n) t0 in
    let r1 = numbered r0.1 t1 in
    let r2 = numbered r1.1 t2 in
    let r3 = numbered r2.1 t3 in
    (node n r0.0 r1.0 r2.0 r3.0, r3.1)

label_of : Entry ℕ → ℕ
label_of (internal n) = n
label_of (tip n is) = n

seen : Outcome (Counted (List ℕ)) → List ℕ
seen (done m) = reverse m.state
seen (refused r) = []

visit_numbers : List Float → ℕ → List ℕ → List ℕ
visit_numbers at n skips =
    let t = (numbered 0 (tree_of at n)).0 in
    seen (walk (λ e s. done (after (label_of e ∷ s) (continue_if (cond (has skips (label_of e)) false true)))) t (counted [] 0)) ++ map label_of (parent_last t)

force_input : List Float → List ℕ → List Float → List ℕ → ForceInput
force_input at buffer draws work = record { places = at; buffer = buffer; start = 3; draws = draws; work = work }

force_numbers : ForceInput → Outcome (Counted Flow) → List ℕ
force_numbers l o = let a = force_answer l o in a.refusal.number ∷ a.refusal.place ∷ a.visits ∷ a.draws ∷ (buffer_after l o ++ work_after o l.work)

spread : List Particle → List ℕ
spread [] = []
spread (p ∷ ps) = bits_of p.x ∷ bits_of p.y ∷ bits_of p.vx ∷ bits_of p.vy ∷ p.flags ∷ spread ps

list_numbers : (List Particle → Outcome (List Particle)) → List Particle → List ℕ
list_numbers call ps = let o = call ps in (refusal_of o).number ∷ (refusal_of o).place ∷ spread (particles_after o ps)

sheet_input : List ℕ → ℕ → List ℕ → List Float → List ℕ → List Float → List ℕ → SheetInput
sheet_input s a e n l d w = record { sheet = s; alpha = a; words = e; numbers = n; links = l; draws = d; work = w }

tick_numbers : SheetInput → Settings → List ℕ
tick_numbers l s =
    let a = tick_answer l s in
    a.refusal.number ∷ a.refusal.place ∷ a.visits ∷ a.draws ∷ alpha_after_tick l s ∷ (sheet_after_tick l s ++ work_after_tick l s)

step_numbers : SheetInput → Settings → Float → ℕ → List ℕ
step_numbers l s least budget =
    let a = step_answer l s least budget in
    a.refusal.number ∷ a.refusal.place ∷ a.ticks ∷ a.finished ∷ a.visits ∷ a.draws ∷ alpha_after_step l s least budget ∷ (sheet_after_step l s least budget ++ work_after_step l s least budget)
'''
OPEN = 'opened f equals integer floor_numbers tree_numbers has numbered label_of seen visit_numbers force_input force_numbers spread list_numbers sheet_input tick_numbers step_numbers'


# ---- theorems


def statement(name, made):
    """The theorem of this name on a term and the numbers that it has to be."""
    term, expected = made
    return '\n%s : equals (%s) %s ≡ true\nunfolding %s\n%s = refl\n' % (name, term, numbers(expected), OPEN, name)


def judged(lines):
    """Each case with its first word (of a force its letter too), the oracle's answer, and its term and numbers; those that make no theorem are left out."""
    asked = ['tree 1024' + line[4:] if line.startswith('list ') else line for line in lines]
    for line, answer in zip(lines, ask(['rust'], ''.join(line + '\n' for line in asked))):
        t = Words(line)
        kind = t.word()
        made = CASES[kind](t, answer)
        if made:
            yield line, kind + (' ' + line.split()[2] if kind == 'force' else ''), answer, made


def definitions(folder):
    """A copy of crates/rules: its definitions and types, without functions and theorems, so that a changed definition is judged by what it computes and by nothing else."""
    rules = os.path.join(folder, 'crates', 'rules')
    shutil.copytree(os.path.join(ROOT, 'crates', 'rules'), rules, ignore=shutil.ignore_patterns('proofs', 'out'))
    source = os.path.join(rules, 'src', 'lib.rt')
    types = re.sub(r'^(?:impl|pub fn) .*?^}\n', '', open(source).read(), flags=re.M | re.S)
    open(source, 'w').write(types + '\npub fn none() {}\n')
    return rules


def library(folder, name, modules):
    """A crate that holds these modules as its definitions."""
    for part in ('specs', 'src'):
        os.makedirs(os.path.join(folder, 'crates', name, part))
    open(os.path.join(folder, 'crates', name, 'src', 'lib.rt'), 'w').write('// Theorems.\npub fn none() {}\n')
    open(os.path.join(folder, 'crates', name, 'specs', 'Lib.antt'), 'w').write(''.join('pub mod %s\n' % module for module in modules))
    for module in modules:
        open(os.path.join(folder, 'crates', name, 'specs', module + '.antt'), 'w').write(modules[module])


# what the prover says of a theorem whose left side it computed, and it isn't true
FALSE = re.compile(r'`Path Bool false false` \(found\)|and the other has `false` \(found\)')


def check(folder, name):
    """What the prover says, its status, the theorems that are false, and what else fails, as what can't be read or takes too many steps."""
    done = subprocess.run(['rt', 'check'], cwd=os.path.join(folder, 'crates', name), capture_output=True, text=True)
    text = done.stdout + done.stderr
    errors = re.findall(r'/([A-Za-z0-9]+)\.antt:[0-9:]+ error: `([^`]+)`(.*(?:\n  .*)*)', text)
    false = [(module, theorem) for module, theorem, message in errors if FALSE.search(message)]
    return text, done.returncode, false, [(module, theorem) for module, theorem, _ in errors if (module, theorem) not in false]

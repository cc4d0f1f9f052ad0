#!/usr/bin/env python3
"""Writes proofs/lending/* and proofs/changing/*: the walk of each export that lends its pointers on to one call, and hands on all else.
The tables L and O at the end have the exports with their parameters; rt fmt lays the files out."""
import os
import re
from pathlib import Path

# kinds: ('raw',), ('shr', row), ('slice', row), ('num', width), ('bool',), ('mut', row), ('mslice', row)
def proj(base, i):
    return base + '.1' * i + '.0'

def gen(crate, path, name, callee_mod, callee, params, result, row_use, rows):
    """path: module path of export, e.g. exports; rows: {local name: use line}"""
    n = len(params)
    raws = [i for i, p in enumerate(params) if p[0] == 'raw']
    assert raws == list(range(len(raws))) and raws, 'raw pointers come first'
    nraw = len(raws)
    lts = []          # lifetime number in the export of each param, or None
    k = 0
    for p in params:
        if p[0] in ('shr', 'slice', 'mut', 'mslice'):
            lts.append(k); k += 1
        else:
            lts.append(None)
    nl = k
    A = lambda i: proj('a', i)
    def kap(j): return proj('κs', j)
    def vals_fn(p):
        return {'raw': 'rawptr_vals', 'shr': 'shr_vals', 'slice': 'shr_slice_vals', 'num': None, 'bool': 'bool_vals', 'mut': 'mut_vals', 'mslice': 'mut_slice_vals'}[p[0]] or f'(uint_vals {p[1]})'
    def vals_fn0(p):
        return vals_fn(p).strip('()') if p[0] != 'num' else f'uint_vals {p[1]}'
    def tells(p, j):
        if p[0] == 'raw': return 'rawptr_Tells'
        if p[0] == 'num': return f'uint_Tells {p[1]}'
        if p[0] == 'bool': return 'bool_Tells'
        f = {'shr': 'shr_Tells', 'slice': 'shr_slice_Tells', 'mut': 'mut_Tells', 'mslice': 'mut_slice_Tells'}[p[0]]
        return f'{f} (named {j}) {kap(j)} {p[1]}'
    def tup(xs):
        s = 'tt'
        for x in reversed(xs): s = f'({x}, {s})'
        return s
    def flat(i, p, raw):
        if p[0] == 'raw': return f'ptr_val {raw}'
        if p[0] == 'num': return f'vint {p[1]} {A(i)}'
        if p[0] == 'bool': return f'vbool {A(i)}'
        if p[0] in ('shr', 'mut'): return f'vptr {A(i)}.ref_ptr.0 {A(i)}.ref_ptr.1'
        return f'slice_val {A(i)}.ref_ptr (length {A(i)}.now)'
    def typed(i, p):
        if p[0] in ('raw', 'shr', 'mut', 'bool'): return '(tt, tt)'
        if p[0] == 'num': return f'(tt, record {{ fits = {proj("are", i)}.1 }})'
        return f'(tt, (tt, (record {{ fits = {proj("are", i)}.0.1.0 }}, tt)))'
    loans = [f'loan' if nraw == 1 else f'loans.{i}' for i in range(nraw)]
    rest_vals = [f'{vals_fn(p)} {A(i)}' for i, p in enumerate(params) if i >= nraw]
    def tail(xs): return tup(xs)
    # a as (p0, (p1, a.1.1..))
    ps = ['p', 'p\''][:nraw]
    def args(rawnames):
        s = 'a' + '.1' * nraw
        for r in reversed(rawnames): s = f'({r}, {s})'
        return s
    def vals(rawnames):
        return tup([f'rawptr_vals {r}' for r in rawnames] + rest_vals)
    rw = {1: 'R'}
    out = []
    raw_args = ' '.join(f'({x} : Ptr)' for x in ps)
    w = out.append
    w(f'-- {"The pointer is" if nraw == 1 else "Both pointers are"} lent on as {"a reference" if nraw == 1 else "references"}, all else is handed on, and the {"token comes" if nraw == 1 else "tokens come"} back.')
    w(f'use Rattle.{crate}.proofs.Steps.{{{", ".join(sorted(STEPS))}}}')
    w(f'use Rattle.{crate}.proofs.Handed.{{all_handed, all_go}}')
    w(f'use Rattle.{crate}.specs.Lent.' + ('{lent, token}' if nraw == 1 else '{both_lent, lent, token}'))
    w(f'use {row_use}')
    for line in rows: w(f'use {line}')
    w(f'use Rattle.{crate}.specs.contracts.{path}.{name} as f')
    w(f'use Rattle.{crate}.proofs.{path}.{name}.Statement.{{statement}}')
    w(f'use Rattle.{crate}.proofs.{path}.{name}.Code as code')
    w(f'use Rattle.{crate}.specs.contracts.{callee_mod}.{callee} as g')
    w(f'use Rattle.{crate}.proofs.{callee_mod}.{callee}.Met.{{met}}')
    w('')
    w('abbrev stayed : Stays f.ended.signature.params f.ended.kept')
    w('stayed = all_handed f.ended.signature.params f.ended.kept')
    w('')
    w(f'pub {name}_spec : {{M : Type 1}} → statement M')
    w(f'{name}_spec 𝓤 𝓛 𝓜 𝓡 wired =')
    w('    let c = f.clauses 𝓛 𝓜.mem 𝓡.returns in let W = walk_of 𝓛 f.ended stayed c in let 𝓣 = tables 𝓤 𝓛.H 𝓜 𝓡 𝓡.env in')
    w(f'    proved 𝓛 f.ended stayed c 𝓜 𝓡 (all_go 𝓛 {nl} f.ended.signature.params f.ended.kept)')
    w('    f.Key.name code.function (code.unfolded 𝓤 𝓛.H 𝓜 𝓡 wired)')
    w(f'    (λ κs. {tup([vals_fn0(p) for p in params])})')
    w(f'    (λ κs. {tup([tells(p, lts[i]) for i, p in enumerate(params)])}) (λ κs qs bounds a {"loan" if nraw == 1 else "loans"} are.')
    w(f'    let y : {" → ".join(["Ptr"] * nraw)} → W.Ghost = λ {" ".join(ps)}. ((κs, qs, bounds, {args(ps)}, {vals(ps)}), {"loan" if nraw == 1 else "loans"}) in')
    return out, dict(nl=nl, lts=lts, A=A, kap=kap, tup=tup, flat=flat, typed=typed, loans=loans, ps=ps, args=args, vals=vals, nraw=nraw, rest_vals=rest_vals)

STEPS = '! Bool Bor Is List MutRef MutSlice Ptr RawPtr ShrRef ShrSlice Stays Val WpFn [] addr agg alive alloc_all and_then ap at_exit await block_ptr bool bool_Lawful bool_Tells bool_vals calls_at done drop ends_at enter fjoin fld flft frame framed free_all from fsep fsplit fst∗ ftrue get get_in group hop id⊢ in_a_block join lands_as lasts later length look_at look_in_at move mut_Tells mut_slice_Tells mut_slice_vals mut_vals named never no_more nothing owns pass_all peeks pick plain prop proved ptr_val qed raw rawptr_Tells rawptr_vals refl regoal returns sem sets shows shr_Tells shr_slice_Tells shr_slice_vals shr_vals slice_val some split stop sub suffices tables through triple_of types_at i32 u32 u64 u8 uint_Lawful uint_Tells uint_vals use1 use2 usize vbool vint vptr w32 w64 w8 walk_of whole yes ‵ ℕ ◌$◌ ◌∵◌ ◌∷◌ ◌≡◌ ◌⊛◌'.split()

def full(crate, path, name, callee_mod, callee, params, result, row_use, rows):
    out, x = gen(crate, path, name, callee_mod, callee, params, result, row_use, rows)
    w = out.append
    n = len(params); nraw = x['nraw']; nl = x['nl']; tup = x['tup']; A = x['A']; kap = x['kap']
    rawvars = [A(i) for i in range(nraw)]
    # the entry context
    tail_own = f'‵ (owns (types_at f.signature.params κs){".1" * nraw} {"a" + ".1"*nraw} {"(" + x["vals"](rawvars) + ")" + ".1"*nraw})'
    w(f'    let vs = (y {" ".join(rawvars)}).0.4 in')
    own_tail = 'own_tail'
    # formula of the parameters after the pointers, nested to the right as `owns` has it
    parts = []
    j = 0
    for i, p in enumerate(params):
        if i < nraw: continue
        v = proj('vs', i)
        if p[0] == 'num': r = {'w8': 'u8', 'w32': 'u32', 'w64': 'usize'}[p[1]]
        elif p[0] == 'bool': r = 'bool'
        else:
            T = {'shr': 'ShrRef', 'slice': 'ShrSlice', 'mut': 'MutRef', 'mslice': 'MutSlice'}[p[0]]
            r = f'({T} (named {x["lts"][i]}) {kap(x["lts"][i])} {p[1]})'
        parts.append(f'{r}.own_val {A(i)} {v}')
    s = 'ftrue'
    for q in reversed(parts): s = f'fsep ({q}) ({s})' if s != 'ftrue' else f'fsep ({q}) ftrue'
    w(f'    let Rest = ‵ ({s}) in')
    ctx = f'raw (alive 𝓛 f.signature κs qs)'
    owns_ctx = 'Rest'
    for i in reversed(range(nraw)):
        owns_ctx = f'‵ (RawPtr.own_val {A(i)} (rawptr_vals {A(i)})) ⊛ {owns_ctx}'
    if nraw == 1:
        lent = f'‵ (lent {A(0)} loan)'
        w(f'    qed 𝓛 (({ctx} ⊛ ({owns_ctx})) ∷ {lent} ∷ []) ∵')
        w('    split ! $ move ! (1 ∷ []) $ split ! $ drop ! $ move ! (2 ∷ []) $')
        w(f'    in_a_block ! {A(0)} (λ p. lent p loan) (fst∗ 𝓤 (never 𝓤) (sem 𝓛 (token loan))) (λ b o e.')
        fl = ' ∷ '.join(x['flat'](i, p, 'p') for i, p in enumerate(params)) + ' ∷ []'
        w(f'    regoal ! (λ p. prop (WpFn 𝓤 𝓛.H 𝓣.C 𝓣.Λ code.function ({fl}) (W.post (y p)))) e refl $')
        w('    enter ! _ _ _ _ _ $')
        w(f'    alloc_all ! (λ l. pass_all ! refl {tup([x["typed"](i, p) for i, p in enumerate(params)])} $')
        w('    fsplit ! $')
        w('    -- [the reference; its token; what is handed on; the tokens; the locals]')
    else:
        w(f'    qed 𝓛 (({ctx} ⊛ ({owns_ctx})) ∷ ‵ (both_lent {A(0)} {A(1)} loans) ∷ []) ∵')
        w('    split ! $ move ! (1 ∷ []) $ split ! $ drop ! $ split ! $ drop ! $ move ! (2 ∷ []) $ fsplit ! $')
        w(f'    in_a_block ! {A(0)} (λ p. lent p loans.0) (fst∗ 𝓤 (never 𝓤) (sem 𝓛 (token loans.0))) (λ b o e. move ! (1 ∷ []) $')
        w(f'    in_a_block ! {A(1)} (λ p. lent p loans.1) (fst∗ 𝓤 (never 𝓤) (sem 𝓛 (token loans.1))) (λ b\' o\' e\'.')
        def fl(p0, p1):
            raws = [p0, p1]
            return ' ∷ '.join(x['flat'](i, p, raws[i] if i < 2 else '') for i, p in enumerate(params)) + ' ∷ []'
        w(f'    regoal ! (λ p. prop (WpFn 𝓤 𝓛.H 𝓣.C 𝓣.Λ code.function ({fl("p", A(1))}) (W.post (y p {A(1)})))) e refl $')
        w(f'    regoal ! (λ p. prop (WpFn 𝓤 𝓛.H 𝓣.C 𝓣.Λ code.function ({fl("(block_ptr b o)", "p")}) (W.post (y (block_ptr b o) p)))) e\' refl $')
        w('    enter ! _ _ _ _ _ $')
        w(f'    alloc_all ! (λ l. pass_all ! refl {tup([x["typed"](i, p) for i, p in enumerate(params)])} $')
        w('    -- [the second loan; the first; what is handed on; the tokens; the locals]')
        w('    fsplit ! $ move ! (2 ∷ []) $ fsplit ! $')
        w('    -- [the first reference; its token; the second; its token; what is handed on; the tokens; the locals]')
    # statements
    for i, p in enumerate(params):
        if p[0] in ('raw', 'mut'):
            w('    sets ! (addr ! (through ! refl (stop !))) refl (tt, tt) $')
        elif p[0] == 'mslice':
            w(f'    sets ! (addr ! (from ! (fld ! refl (hop ! (look_in_at ! {i + 1} (sub ! 0 refl (whole !))) (stop !))))) refl (tt, tt) $')
            w(f'    sets ! (agg ! (and_then ! (get ! refl) (and_then ! (get_in ! (fld ! refl (stop !)) (sub ! 1 refl (whole !))) (no_more !)))) refl {x["typed"](i, p)} $')
    blocks = ['b o', "b' o'"]
    for i in range(nraw):
        Rn = 'R'
        bo = ['(b, o)', "(b', o')"][i]
        w(f'    let r{i+1} : Bor {Rn}.Denot = record {{ ref_ptr = {bo}; now = {x["loans"][i]}.value }} in')
    w('    let G = triple_of 𝓛 g.signature (g.spec 𝓛 𝓜.mem 𝓡.returns) in')
    ks, qs_ = 'κs', 'qs'
    aa = 'a' + '.1' * nraw
    vv = 'vs' + '.1' * nraw
    for i in reversed(range(nraw)):
        ks = f'({x["loans"][i]}.while, {ks})'; qs_ = f'({x["loans"][i]}.share, {qs_})'
        aa = f'(r{i+1}, {aa})'
        vp = ['vptr b o', "vptr b' o'"][i]
        vv = f'({vp} ∷ [], {vv})'
    w(f'    let z : G.Ghost = (({ks}, {qs_}, tt, {aa}, {vv}), tt) in')
    if nraw == 1:
        w('    move ! (0 ∷ 2 ∷ []) $ join ! $ move ! (1 ∷ 2 ∷ []) $ join ! $ join ! $')
    else:
        w('    move ! (0 ∷ 2 ∷ 4 ∷ []) $ group ! 3 $ move ! (1 ∷ 2 ∷ 3 ∷ []) $ group ! 3 $ join ! $')
    w('    nothing ! $ move ! (1 ∷ 0 ∷ []) $ use2 𝓛 (raw (G.pre z)) (id⊢ 𝓤 _) $')
    w(f'    calls_at ! (framed 𝓤 𝓛.H 𝓜 (tables 𝓤 𝓛.H 𝓜 𝓡 𝓡.env)) G (met 𝓤 𝓛 𝓜 𝓡 (code.calls-{crate}::{callee_mod.replace(".", "::")}::{callee} 𝓡.env wired)) z')
    ops = '(no_more !)'
    for _ in params: ops = f'(and_then ! (get ! refl) {ops})'
    w(f'    {ops} (λ v.')
    res = {'usize': ('ℕ', 'usize', 'w64'), 'u32': ('ℕ', 'u32', 'w32'), 'u64': ('ℕ', 'u64', 'w64'), 'bool': ('Bool', 'bool', None)}[result]
    last = tup([{'mut': None, 'mslice': None}.get(p[0], 'x') and 'Unit {0}' or (f'{p[1]}.Denot' if p[0] == 'mut' else f'(List {p[1]}.Denot)') for p in params])
    lt = 'Unit {0}'
    for p in reversed(params):
        e = f'{p[1]}.Denot' if p[0] == 'mut' else (f'List {p[1]}.Denot' if p[0] == 'mslice' else 'Unit {0}')
        lt = f'{e} × ({lt})'
    toks = 'raw (alive 𝓛 f.signature κs qs)'
    for i in reversed(range(nraw)): toks = f'‵ (token {x["loans"][i]}) ⊛ ({toks})' if False else f'‵ (flft {x["loans"][i]}.while {x["loans"][i]}.share) ⊛ ({toks})'
    w(f'    use1 𝓛 (later (some (λ (u : {res[0]}). (({toks}) ⊛ ‵ ({res[1]}.own_val u (v ∷ []))) ⊛')
    w(f'    some (λ (ws : {lt}). ‵ (lasts g.ended z.0.0 z.0.3 ws) ⊛ raw ((g.clauses 𝓛 𝓜.mem 𝓡.returns z.0.0 z.0.3).ensures tt u (at_exit g.ended z.0.0 z.0.3 ws)))))) (id⊢ 𝓤 _) $')
    w('    await ! tt $ pick ! (λ u. split ! $ split ! $ split ! $' + (' move ! (1 ∷ []) $ split ! $ move ! (2 ∷ []) $' if nraw == 2 else ''))
    # after splits: nraw==1: [tok; alive; own u; some..., locals]
    if nraw == 1:
        w('    move ! (3 ∷ []) $ pick ! (λ ws. split ! $')
        w('    -- [what the call left; what it ensures; the token; the tokens; the number]')
        w('    move ! (4 ∷ []) $')
    else:
        w('    -- [the first token; the second; the tokens; the number; the rest]')
        w('    move ! (4 ∷ []) $ pick ! (λ ws. split ! $')
        w('    -- [what the call left; what it ensures; the two tokens; the tokens; the number]')
        w('    move ! (5 ∷ []) $')
    law = f'(uint_Lawful 𝓛 {res[2]})' if res[2] else '(bool_Lawful 𝓛)'
    w(f'    peeks ! {res[1]} (Is {res[1]}) (shows 𝓛 {res[1]}) u (v ∷ []) (λ is. lands_as ! refl refl ({law}.typed u _ is).0 $')
    w('    returns ! (look_at ! 0 refl) $ free_all ! refl $')
    yy = 'y ' + ' '.join(['(block_ptr b o)', "(block_ptr b' o')"][:nraw])
    fits = tup(['tt'] * n)
    w(f'    suffices ! _ (ends_at 𝓛 f.ended stayed c ({yy}) v u ws {fits}) $')
    if nraw == 1:
        # [number; left; ensures; token; tokens]
        w('    move ! (4 ∷ 1 ∷ 0 ∷ []) $ group ! 3 $ frame ! $ move ! (1 ∷ 0 ∷ []) $ join ! $ done !' + ')' * 7)
    else:
        # [number; left; ensures; t1; t2; tokens]
        w('    move ! (5 ∷ 1 ∷ 0 ∷ []) $ group ! 3 $ frame ! $ move ! (1 ∷ 2 ∷ []) $ fjoin ! $ join ! $ done !' + ')' * 8)
    return '\n'.join(out) + '\n'

OWN = '! Is MutBor MutRef Ptr RawPtr ShrSlice Stays WpFn [] addr alive alloc_all and_then at_exit await block_ptr calls_at done drop ends_at enter fjoin flft frame framed free_all fsep fsplit ftrue full_share get group heard id⊢ in_a_block join lands_as lasts later length look_at move mut_Tells mut_vals named no_more nothing pass_all peeks pick prop proved ptr_val qed raw rawptr_Tells rawptr_vals refl regoal returns sets shows shr_slice_Tells shr_slice_vals slice_val some split stop suffices tables through triple_of u32 u8 uint_Lawful use1 use2 use3 vptr w32 walk_of ‵ ℕ ◌$◌ ◌∵◌ ◌∷◌ ◌⊛◌'.split()

def owning(crate, path, name, callee_mod, callee, params, row_use, rows, gives):
    """The pointer comes first. `gives` is what holds at the return, of the arguments `a`, the result `u`, the last values `ws` and the
    content {now}."""
    out, x = gen(crate, path, name, callee_mod, callee, params, 'u32', row_use, rows)
    tup, A, nl = x['tup'], x['A'], x['nl']
    params = params[1:]
    head = []
    w = head.append
    w('-- The content is lent for the time of the call, all else is handed on, and the content comes back as the call left it.')
    w(f'use Rattle.{crate}.proofs.Steps.{{}}')
    for line in ['base.Fml.{fex, flent}', 'denote.Lend.{lends_ref, ref_back}', 'denote.Memory.{mem, part_at}', 'types.Kit.{fpack}', 'types.SemTy.{Body}', 'types.Tokens.{lft_new, lft_end}',
                 f'Rattle.{crate}.proofs.Handed.{{all_handed, all_go}}', f'Rattle.{crate}.specs.Changing.{{{gives.split()[0]}}}', f'Rattle.{crate}.specs.Owned.{{owned}}', row_use]: w(f'use {line}')
    body = '\n'.join(out)
    start = body.index('use Rattle.' + crate + '.specs.contracts.content')
    body = body[body.index('\n', start) + 1:].replace(' loan are.', ' was are.').replace(', tt)), loan) in', ', tt)), was) in')
    body = re.sub(r', loan\) in$', ', was) in', body)
    w(body)
    fl = ' ∷ '.join(x['flat'](i, p, 'p') for i, p in enumerate([('raw',)] + params)) + ' ∷ []'
    vs = x['vals'](['a.0'])
    rest = 'ftrue'
    for i, p in reversed(list(enumerate(params, 1))):
        T = {'shr': 'ShrRef', 'slice': 'ShrSlice', 'mut': 'MutRef', 'mslice': 'MutSlice'}[p[0]]
        rest = f'fsep (({T} (named {x["lts"][i]}) {x["kap"](x["lts"][i])} {p[1]}).own_val {A(i)} {proj("vs", i)}) ' + (f'({rest})' if rest != 'ftrue' else rest)
    w('    let vs = (y a.0).0.4 in')
    w(f'    let Rest = ‵ ({rest}) in')
    w('    qed 𝓛 ((raw (alive 𝓛 f.signature κs qs) ⊛ (‵ (RawPtr.own_val a.0 (rawptr_vals a.0)) ⊛ Rest)) ∷ ‵ (owned a.0 was) ∷ []) ∵')
    w('    split ! $ move ! (1 ∷ []) $ split ! $ drop ! $ move ! (2 ∷ []) $')
    w('    in_a_block ! a.0 (λ p. owned p was) (id⊢ 𝓤 _) (λ b o e.')
    w(f'    regoal ! (λ p. prop (WpFn 𝓤 𝓛.H 𝓣.C 𝓣.Λ code.function ({fl}) (W.post (y p)))) e refl $')
    w('    enter ! _ _ _ _ _ $')
    w(f'    alloc_all ! (λ l. pass_all ! refl {tup([x["typed"](i, p) for i, p in enumerate([("raw",)] + params)])} $')
    w('    -- [the content; what is handed on; the tokens; the locals]')
    w('    lft_new ! tt (λ α. move ! (1 ∷ []) $')
    w('    use1 𝓛 (later (some (λ (γ : ℕ). ‵ ((MutRef (named 0) (α ∷ []) R).own_val (record { ref_ptr = (b, o); ghost_name = γ; now = was }) (vptr b o ∷ [])) ⊛ ‵ (flent (α ∷ []) (Body (mem R) b o γ)))))')
    w('    (lends_ref 𝓛 R (named 0) (α ∷ []) was b o) $ await ! tt $ pick ! (λ γ. split ! $')
    w("    -- [the loan; the lender's part; its token; what is handed on; the tokens; the locals]")
    for p in [('raw',)] + params:
        if p[0] in ('raw', 'mut'): w('    sets ! (addr ! (through ! refl (stop !))) refl (tt, tt) $')
    w('    let r : MutBor R.Denot = record { ref_ptr = (b, o); ghost_name = γ; now = was } in')
    w('    let G = triple_of 𝓛 g.signature (g.spec 𝓛 𝓜.mem 𝓡.returns) in')
    w('    let z : G.Ghost = (((α ∷ [], κs), (full_share, qs), tt, (r, a.1), (vptr b o ∷ [], vs.1)), tt) in')
    w('    move ! (0 ∷ 3 ∷ []) $ join ! $ move ! (2 ∷ 3 ∷ 0 ∷ []) $ join ! $ join ! $')
    w('    nothing ! $ move ! (1 ∷ 0 ∷ []) $ use2 𝓛 (raw (G.pre z)) (id⊢ 𝓤 _) $')
    w(f'    calls_at ! (framed 𝓤 𝓛.H 𝓜 (tables 𝓤 𝓛.H 𝓜 𝓡 𝓡.env)) G (met 𝓤 𝓛 𝓜 𝓡 (code.calls-{crate}::{callee_mod}::{callee} 𝓡.env wired)) z')
    ops = '(no_more !)'
    for _ in [0] + params: ops = f'(and_then ! (get ! refl) {ops})'
    w(f'    {ops} (λ v.')
    lt = 'Unit {0}'
    for p in reversed(params): lt = (f'{p[1]}.Denot' if p[0] == 'mut' else 'Unit {0}') + f' × ({lt})'
    w('    use1 𝓛 (later (some (λ (u : ℕ). ((‵ (flft (α ∷ []) full_share) ⊛ (raw (alive 𝓛 f.signature κs qs))) ⊛ ‵ (u32.own_val u (v ∷ []))) ⊛')
    w(f'    some (λ (ws : R.Denot × ({lt})). ‵ (lasts g.ended z.0.0 z.0.3 ws) ⊛ raw ((g.clauses 𝓛 𝓜.mem 𝓡.returns z.0.0 z.0.3).ensures tt u (at_exit g.ended z.0.0 z.0.3 ws)))))) (id⊢ 𝓤 _) $')
    w('    await ! tt $ pick ! (λ u. split ! $ split ! $ split ! $ lft_end ! tt $')
    w('    move ! (3 ∷ []) $ pick ! (λ ws. split ! $ move ! (1 ∷ []) $ heard ! _ (λ holds. fsplit ! $ fsplit ! $')
    w("    -- [the content's last value; its borrow; what is left; the loan is over; the tokens; the number; the lender's part]")
    w('    move ! (3 ∷ 6 ∷ 0 ∷ []) $ use3 𝓛 (later (‵ (part_at R full_share ws.0 b o))) (ref_back 𝓛 R (α ∷ []) γ ws.0 b o) $ await ! tt $')
    w('    -- [the content; its borrow; what is left; the tokens; the number]')
    w('    move ! (4 ∷ []) $')
    w('    peeks ! u32 (Is u32) (shows 𝓛 u32) u (v ∷ []) (λ is. lands_as ! refl refl ((uint_Lawful 𝓛 w32).typed u _ is).0 $')
    w('    returns ! (look_at ! 0 refl) $ free_all ! refl $')
    w(f'    suffices ! _ (ends_at 𝓛 f.ended stayed c (y (block_ptr b o)) v u (tt, ws.1) {tup(["tt"] * (len(params) + 1))}) $')
    w('    -- [the number; the content; its borrow; what is left; the tokens]')
    w(f'    nothing ! $ fpack ! ({gives.format(now="ws.0")}) (λ _. ftrue) holds $')
    w(f'    move ! (2 ∷ 0 ∷ []) $ fjoin ! $ fpack ! R.Denot (λ content. fsep (owned (block_ptr b o) content) (fex ({gives.format(now="content")}) (λ _. ftrue))) ws.0 $')
    w('    -- [the content, of which this holds; the number; its borrow; what is left; the tokens]')
    w('    move ! (2 ∷ []) $ drop ! $ nothing ! $ move ! (0 ∷ 3 ∷ []) $ fjoin ! $ move ! (3 ∷ 0 ∷ 2 ∷ []) $ group ! 3 $ done !))))))))))')
    return '\n'.join(head) + '\n'

base = str(Path(__file__).resolve().parent / 'proofs') + '/'
names=set()
for m in re.finditer(r'\{([^}]*)\}',open(base+'Steps.antt').read()):
    names|={x.strip() for x in m.group(1).split(',')}
RAW=('raw',); ID=('shr','Id'); NAME=('slice','u8'); N=('num','w64'); ROOM=('mslice','u8'); LEN=('mut','usize'); OUT=('mut','Id')
L=[('haya_library_len','asking','library_len',[RAW],'usize'),
('haya_library_get','asking','library_get',[RAW,NAME,OUT],'u32'),
('haya_library_notes','asking','library_notes',[RAW],'usize'),
('haya_library_note','asking','library_note',[RAW,N,ROOM,LEN,('mut','u64')],'u32'),
('haya_library_next','asking','library_next',[RAW,RAW,LEN,OUT,('mslice','Id')],'u32'),
('haya_entry_parents','asking','entry_parents',[RAW,ID],'usize'),
('haya_entry_parent','asking','entry_parent',[RAW,ID,N,OUT],'u32'),
('haya_entry_key','asking','entry_key',[RAW,ID,ROOM,LEN],'u32'),
('haya_entry_type','asking','entry_type',[RAW,ID,ROOM,LEN],'u32'),
('haya_entry_has','asking','entry_has',[RAW,ID,NAME],'bool'),
('haya_entry_text','asking','entry_text',[RAW,ID,NAME,ROOM,LEN],'u32'),
('haya_entry_text_as','asking','entry_text_as',[RAW,ID,NAME,('num','w32'),ROOM,LEN],'u32'),
('haya_entry_persons','asking','entry_persons',[RAW,ID,NAME],'usize'),
('haya_entry_person','asking','entry_person',[RAW,ID,NAME,N,('num','w32'),ROOM,LEN],'u32'),
('haya_entry_date','asking','entry_date',[RAW,ID,NAME,('mut','Date')],'u32'),
('haya_entry_number','asking','entry_number',[RAW,ID,NAME,('mut','i32')],'u32'),
('haya_entry_page_ranges','asking','entry_page_ranges',[RAW,ID],'usize'),
('haya_entry_page_range','asking','entry_page_range',[RAW,ID,N,('mut','Pages')],'u32'),
('haya_entry_matches','asking','entry_matches',[RAW,RAW,ID,('mut','bool')],'u32'),
('haya_selector_names','asking','selector_names',[RAW],'usize'),
('haya_selector_name','asking','selector_name',[RAW,N,ROOM,LEN],'u32'),
]+([
('haya_entry_json','asking','entry_json',[RAW,ID,ROOM,LEN],'u32'),
('haya_library_write','asking','library_write',[RAW,('num','w32'),('mut','Made')],'u32')])
FAULT=('mut','Fault')
O=[('haya_library_push','changes','library_push',[RAW,NAME,FAULT],'PushGives a.1.0.now was {now} u a.1.1.0.now ws.1.1.0'),
('haya_library_remove','changes','library_remove',[RAW,NAME],'RemoveGives a.1.0.now was {now} u')]
R='Rattle.hayagriva_c.specs.contracts.content.Content.{the_row as R}'

def write(folder,name,t,names):
    """Writes the proof with the names that it uses."""
    body=t.split('\n'); i=[k for k,l in enumerate(body) if 'proofs.Steps.{' in l][0]
    rest='\n'.join(body[i+1:])
    toks=set(re.findall(r"[^\s(){}\[\],;.]+",rest))|set(re.findall(r"[^\s(){},;]+",rest))
    used=[n for n in names if n in toks or n in ('◌$◌','◌∵◌','◌∷◌','◌⊛◌','!','‵','[]')]
    body[i]='use Rattle.hayagriva_c.proofs.Steps.{'+', '.join(used)+'}'
    os.makedirs(base+folder+name,exist_ok=True)
    open(base+folder+name+'/Proof.antt','w').write('\n'.join(l.rstrip() for l in body))

for name,mod,callee,params,res in L:
    uses=set(p[1] for p in params if len(p)>1)
    rows=[]
    if 'Id' in uses: rows.append('Rattle.haya_views.specs.contracts.entry_id.EntryId.{the_row as Id}')
    if 'Date' in uses: rows.append('Rattle.hayagriva_c.specs.contracts.values.DateParts.{the_row as Date}')
    if 'Pages' in uses: rows.append('Rattle.hayagriva_c.specs.contracts.values.Pages.{the_row as Pages}')
    if 'Made' in uses: rows.append('Rattle.hayagriva_c.specs.contracts.fault.Written.{the_row as Made}')
    write('lending/',name,full('hayagriva_c','lending',name,mod,callee,params,res,R,rows),STEPS)
for name,mod,callee,params,gives in O:
    rows=['Rattle.hayagriva_c.specs.contracts.fault.Fault.{the_row as Fault}'] if FAULT in params else []
    write('changing/',name,owning('hayagriva_c','changing',name,mod,callee,params,R,rows,gives),OWN)

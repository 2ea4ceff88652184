#!/usr/bin/env python3
"""merge_crates.py FOLDER --named: merges the crates of a checkout of the state before the merge, in place, as the table below says: a crate that
moves becomes a module of its new crate. It stays until the last branch that began before the merge is moved by it."""
import os, re, shutil, sys, subprocess

# old crate: (new crate, module); a crate that is not named stays. A module of None: the crate keeps its root.
TABLE = {
    'rules_base': ('rules_text', 'nodes'), 'rules_text': ('rules_text', 'text'), 'rules_binary': ('rules_text', 'binary'),
    'rules_hash': ('rules_text', 'hash'), 'rules_io': ('rules_text', 'streams'),
    'rules_forms': ('rules_data', 'forms'), 'rules_numbers': ('rules_data', 'numbers'), 'rules_types': ('rules_data', 'types'),
    'rules_values': ('rules_data', 'values'), 'rules_bigmap': ('rules_data', 'big_maps'), 'rules_gas': ('rules_data', 'gas'),
    'rules_instructions': ('rules_code', 'instructions'), 'rules_typing': ('rules_code', 'typing'),
    'rules_steps': ('rules_code', 'steps'), 'rules_evaluation': ('rules_code', 'evaluation'),
    'rules_world': ('rules_world', 'world'), 'rules_lines': ('rules_world', 'lines'), 'rules_summary': ('rules_world', 'summary'),
    'rules_statements': ('rules_files', 'statements'), 'rules_course': ('rules_files', 'course'),
    'rules_generate': ('rules_files', 'workload'), 'rules_replay': ('rules_files', 'commands'),

    'laws_forms': ('laws_data', 'forms'), 'laws_types': ('laws_data', 'types'), 'laws_values': ('laws_data', 'values'),
    'laws_binary': ('laws_data', 'binary'), 'laws_amounts': ('laws_data', 'amounts'),
    'laws_typing': ('laws_typing', 'literals'), 'laws_packing': ('laws_typing', 'packing'),
    'laws_evaluation': ('laws_code', 'evaluation'), 'laws_stacks': ('laws_code', 'stacks'),
    'laws_typed': ('laws_code', 'typed'), 'laws_control': ('laws_code', 'control'), 'laws_literals': ('laws_code', 'literals'),
    'laws_steps': ('laws_code', 'steps'), 'laws_safety': ('laws_code', 'safety'),
    'laws_agreement': ('laws_tickets', 'totals'), 'laws_ticket_steps': ('laws_tickets', 'steps'), 'laws_tickets': ('laws_tickets', 'runs'),
    'laws_stock': ('laws_tickets', 'held'),
    'laws_accounts': ('laws_world', 'accounts'), 'laws_lines': ('laws_world', 'lines'), 'laws_operations': ('laws_world', 'operations'),
    'laws_runs': ('laws_world', 'runs'), 'laws_world': ('laws_world', 'groups'), 'laws_course': ('laws_files', None),

    'rows_evaluation': ('rows', 'evaluation'), 'rows_typing': ('rows', 'typing'),

    'mich_undo': ('mich_base', 'undo'),
    'laws_code': ('mich_instr', 'bodies'),
    'mich_sections': ('mich_check', 'sections'), 'mich_bodies': ('mich_check', 'cache'),
    'mich_collections': ('mich_step', 'collections'), 'mich_prices': ('mich_step', 'prices'),
    'mich_standing': ('mich_world', 'simulation'), 'mich_conditions': ('mich_world', 'preconditions'),
    'laws_suits': ('mich_frames', 'operands'), 'laws_calls': ('mich_frames', 'called'),
    'laws_sights': ('mich_store_steps', 'seen'), 'mich_entries': ('mich_store_steps', 'big_maps'), 'mich_hashes': ('mich_store_steps', 'hashes'),
    'mich_arguments': ('mich_literals', 'arguments'), 'mich_unpack': ('mich_literals', 'unpacking'),
    'mich_course': ('mich_group', 'course'),
}
for new, olds in {
    'tests_base': 'base io num blake gas forms generate', 'tests_text': 'text reader binary scenario report answers',
    'tests_types': 'types overload instr stackrules', 'tests_values': 'term data pack', 'tests_check': 'sections control check bodies',
    'tests_step': 'stack collections step prices entries hashes', 'tests_world': 'bigmap tickets world', 'tests_machine': 'unpack arguments machine',
}.items():
    for old in olds.split():
        TABLE['tests_' + old] = (new, {'check': 'scripts', 'bodies': 'cache'}.get(old, old) if new == 'tests_check' else old)

# modules of a crate that would be known by a name of the crate it comes to
DOCS = {
    'rules_text': 'Definitions alone: nodes, their text and their binary form, hashes, and what files and outputs do.',
    'rules_data': 'Definitions alone: byte forms, numbers, types, values, big maps and gas.',
    'rules_code': 'Definitions alone: instructions, the typing of scripts, steps of instructions without bodies, and evaluation.',
    'rules_world': 'Definitions alone: accounts and contracts, what groups of operations make of them, and the lines that tell it.',
    'rules_files': 'Definitions alone: the statements of a file, what they make of a world, the workload, and the answers of commands.',
    'laws_data': 'Laws of byte forms, types, values, amounts of tickets and the binary form.',
    'laws_typing': 'Laws of literals, and of what can be packed.',
    'laws_code': 'Laws of typed code: evaluation goes on by its own step, and is never stuck.',
    'laws_tickets': 'Laws of tickets: code and runs neither make nor lose one but by minting and burning.',
    'laws_world': 'Laws of accounts, runs of contracts, groups and lines.',
    'rows': 'Worked rows, computed by the rules.',
    'mich_store_steps': 'What instructions that use a store of big maps, pack or hash make of a stack.',
    'mich_literals': 'Literals in a world: arguments and storages that a source writes, and what UNPACK reads.',
    'tests_base': 'Tests of the lowest crates, by their public calls.',
    'tests_text': 'Tests of what is read and printed, by public calls.',
    'tests_types': 'Tests of types, typed instructions and the rows of typing, by public calls.',
    'tests_values': 'Tests of values, literals and packing, by public calls.',
    'tests_check': 'Tests of checked scripts, by public calls.',
    'tests_step': 'Tests of instructions without bodies, by public calls.',
    'tests_world': 'Tests of tickets, big maps and worlds, by public calls.',
    'tests_machine': 'Tests of literals in a world and of runs, by public calls.',
}


def new_of(old):
    return TABLE.get(old, (old, None))


def main(root):
    crates = f'{root}/crates'
    lines = {}
    for line in open(f'{root}/crates.txt', encoding='utf-8'):
        line = line.split('#')[0].strip()
        if line:
            name, _, deps = line.partition(':')
            lines[name.strip()] = deps.split()
    olds = list(lines)
    own = set(olds)
    names = '|'.join(sorted(own, key=len, reverse=True))
    hosts = {n for n in {new_of(o)[0] for o in olds} if n in own and new_of(n) == (n, None)}

    # what the lemmas' files of each crate are called, and whether the crate has code, whose module then has its name in proofs/
    lemmas, coded = {}, {}
    for old in olds:
        try:
            text = open(f'{crates}/{old}/proofs/Lib.antt', encoding='utf-8').read()
        except FileNotFoundError:
            text = ''
        lemmas[old] = set(re.findall(r'^(?:pub )?mod (\S+)', text, flags=re.M))
        body = open(f'{crates}/{old}/src/{"main" if os.path.exists(f"{crates}/{old}/src/main.rt") else "lib"}.rt', encoding='utf-8').read()
        coded[old] = any(line.strip() and not line.startswith(('//', '#![tactic')) for line in body.split('\n'))

    def home_of(old, first):
        sub = new_of(old)[1]
        return f'{sub}_lemmas' if coded[old] and first in lemmas[old] else sub

    def dotted(m):
        new, sub = new_of(m[1])
        rest, first = m[2], m[3]
        if sub is None:
            return f'Rattle.{new}.{rest}{first}'
        if rest == 'proofs.':
            return f'Rattle.{new}.proofs.{home_of(m[1], first)}.{first}'
        return f'Rattle.{new}.{rest}{sub}.{first}'

    def text_of(text, home, is_rt):
        new_home, sub_home = new_of(home)
        text = re.sub(rf'\bRattle\.({names})\.((?:specs\.declared|specs|proofs)\.)([A-Za-z0-9_+]+)', dotted, text)
        # paths in comments
        def place(m):
            new, sub = new_of(m[1])
            part = m[2]
            if sub is None:
                return f'{new}/{part}/'
            return f'{new}/{part}/{sub}/'
        text = re.sub(rf'(?<![A-Za-z0-9_])({names})/(specs|proofs|src)/', place, text)
        if is_rt:
            if sub_home is not None:
                text = re.sub(r'\bcrate::proofs::(\w+)', lambda m: f'crate::proofs::{home_of(home, m[1])}::{m[1]}', text)
                text = re.sub(r'\bcrate::specs::', f'crate::specs::{sub_home}::', text)
                text = re.sub(r'\bcrate::(?!proofs::|specs::)', f'crate::{sub_home}::', text)
            def code(m):
                new, sub = new_of(m[1])
                rest = m[2] or ''
                first = 'crate' if new == new_home else new
                if sub is None:
                    return f'{first}::{rest}{m[3]}'
                return f'{first}::{rest}{home_of(m[1], m[3]) if rest == "proofs::" else sub}::{m[3]}'
            text = re.sub(rf'(?<![A-Za-z0-9_:])({names})::((?:proofs|specs)::)?(\w+|)', code, text)
        return text

    made = f'{root}/crates.new'
    shutil.rmtree(made, ignore_errors=True)
    os.makedirs(made)
    subs = {}                                            # new crate: [(module, has src, has specs, has proofs)]
    for old in olds:
        new, sub = new_of(old)
        at = f'{crates}/{old}'
        for folder, folders, files in os.walk(at):
            folders[:] = [it for it in folders if it != 'out']
            for name in files:
                path = os.path.relpath(f'{folder}/{name}', at)
                with open(f'{folder}/{name}', 'rb') as it:
                    raw = it.read()
                part, _, rest = path.partition('/')
                to = path
                if name.endswith(('.rt', '.antt', '.edit')):
                    text = raw.decode()
                    text = text_of(text, old, name.endswith(('.rt', '.edit')))
                    if sub is not None:
                        if part == 'must-fail':
                            to = f'must-fail/{rest}'
                            text = re.sub(r'^file: src/lib\.rt$', f'file: src/{sub}.rt', text, flags=re.M)
                            text = re.sub(r'^file: (src|specs|proofs)/(?!%s\.rt$)' % sub, rf'file: \1/{sub}/', text, flags=re.M)
                        elif path == 'src/lib.rt':
                            to = f'src/{sub}.rt'
                            text = re.sub(r'^#!\[tactic\(auto\)\]\n\n?', '', text, flags=re.M)
                        elif path == 'specs/Lib.antt':
                            to = f'specs/{sub}.antt'
                        elif path == 'proofs/Lib.antt':
                            to = f'proofs/{sub}{"_lemmas" * coded[old]}.antt'
                            # (what belongs to functions stands beside it from now on)
                            text = re.sub(r'^mod ', 'pub mod ', text, flags=re.M) if coded[old] else text
                        elif part == 'proofs':
                            to = f'proofs/{home_of(old, rest.split("/")[0].removesuffix(".antt"))}/{rest}'
                        else:
                            to = f'{part}/{sub}/{rest}'
                    raw = text.encode()
                elif sub is not None:
                    to = f'{part}/{sub}/{rest}' if rest and part in ('src', 'specs', 'proofs') else path
                if os.path.exists(f'{made}/{new}/{to}'):
                    if part == 'must-fail':
                        to = f'must-fail/{sub or old}_{rest}'
                    else:
                        sys.exit(f'stands twice: {new}/{to} (from {old}/{path})')
                os.makedirs(os.path.dirname(f'{made}/{new}/{to}'), exist_ok=True)
                with open(f'{made}/{new}/{to}', 'wb') as it:
                    it.write(raw)
        if sub is not None:
            # a library of definitions alone has no code of its own
            code = f'{made}/{new}/src/{sub}.rt'
            body = open(code, encoding='utf-8').read()
            has_src = coded[old]
            note = ''
            if not has_src:
                note = ' '.join(line.removeprefix('//!').removeprefix('//').strip() for line in body.split('\n') if line.startswith('//'))
                os.remove(code)
                if os.path.isdir(f'{made}/{new}/src/{sub}'):
                    sys.exit(f'{new}/src/{sub} has no module')
            subs.setdefault(new, []).append((old, sub, has_src, os.path.exists(f'{made}/{new}/specs/{sub}.antt'),
                                             next((it for it in (sub, f'{sub}_lemmas') if os.path.exists(f'{made}/{new}/proofs/{it}.antt')), None), note))
    for new, found in subs.items():
        is_host = new in hosts
        for part, at in (('specs', 3), ('proofs', 4)):
            mods = [(it[at] if part == 'proofs' else it[1], it[5]) for it in found if it[at]]
            if not mods:
                continue
            lib = f'{made}/{new}/{part}/Lib.antt'
            text = open(lib, encoding='utf-8').read().rstrip('\n') + '\n' if os.path.exists(lib) else ''
            os.makedirs(os.path.dirname(lib), exist_ok=True)
            open(lib, 'w', encoding='utf-8').write(text + ''.join(f'pub mod {it}\n' for it, _ in mods))
            for it, note in mods:
                if note:
                    index = f'{made}/{new}/{part}/{it}.antt'
                    was = open(index, encoding='utf-8').read()
                    if not was.startswith('--'):
                        open(index, 'w', encoding='utf-8').write(f'-- {note}\n{was}')
        mods = [it[1] for it in found if it[2]]
        lib = f'{made}/{new}/src/lib.rt'
        if is_host:
            text = open(lib, encoding='utf-8').read()
            if mods:
                add = ''.join(f'pub mod {it};\n' for it in mods)
                text = text.replace('#![tactic(auto)]\n', '#![tactic(auto)]\n\n' + add.rstrip('\n') + '\n', 1)
        else:
            text = f'//! {DOCS[new]}\n#![tactic(auto)]\n' + ('\n' + ''.join(f'pub mod {it};\n' for it in mods) if mods else '')
        os.makedirs(os.path.dirname(lib), exist_ok=True)
        open(lib, 'w', encoding='utf-8').write(text)

    # the libraries that each new crate names
    kit = {'sha2', 'hex', 'lru', 'thiserror'}
    news = []
    for old in olds:
        if new_of(old)[0] not in news:
            news.append(new_of(old)[0])
    deps = {}
    for new in news:
        text = ''
        for folder, folders, files in os.walk(f'{made}/{new}'):
            folders[:] = [it for it in folders if it not in ('out', 'must-fail')]
            for name in files:
                if name.endswith(('.rt', '.antt')):
                    text += open(f'{folder}/{name}', encoding='utf-8').read()
        text = re.sub(r'^\s*(//|--).*$', '', text, flags=re.M)
        named = {it for it in news if it not in (new, 'rows') and re.search(rf'\bRattle\.{it}\.|(?<![A-Za-z0-9_:.]){it}::', text)}
        named |= {it for it in kit if re.search(rf'\bRattle\.{it}\.|(?<![A-Za-z0-9_:.]){it}::', text)}
        listed = set()
        for old in olds:
            if new_of(old)[0] == new:
                listed |= {new_of(it)[0] for it in lines[old]}
        listed.discard(new)
        extra, lacking = sorted(listed - named), sorted(named - listed)
        if extra or lacking:
            print(f'{new}: never named {extra}; named and not listed {lacking}')
        deps[new] = named if '--named' in sys.argv else listed | named
    order, left = [], list(news)
    while left:
        ready = next((it for it in left if all(d in order or d not in news for d in deps[it])), None)
        if ready is None:
            for it in left:
                print('waits:', it, [d for d in deps[it] if d in left])
            sys.exit('crates in a circle')
        order.append(ready)
        left.remove(ready)
    heads = [('rules_', '# The rules: definitions alone.'), ('laws_', '# The laws over the rules.'), ('rows', '# Worked rows, computed by the rules.'),
             ('mich', '# The code, its contracts and its proofs.'), ('tests_', '# Tests of the code, by its public calls.')]
    out = '# A line for each crate: NAME: the crates that it names, ours and those of the kit (hex, lru, sha2, thiserror). Each stands behind ours.\n'
    for head, said in heads:
        out += f'\n{said}\n' + ''.join(f"{it}: {' '.join(sorted(deps[it]))}".rstrip() + '\n' for it in order if it.startswith(head))
    open(f'{root}/crates.txt', 'w', encoding='utf-8').write(out)
    for old in os.listdir(crates):
        if os.path.isdir(f'{crates}/{old}/out') and os.path.isdir(f'{made}/{old}'):
            shutil.move(f'{crates}/{old}/out', f'{made}/{old}/out')
    shutil.rmtree(crates)
    os.rename(made, crates)
    print(len(order), 'crates')


main(os.path.realpath(sys.argv[1]))

#!/usr/bin/env python3
"""Writes what is as long as tao's lists of keys: the enum KeyCode, its numbers, the scan codes' match, and their proofs.

Usage, in the repository's folder: TAO_SRC=FOLDER tools/gen_keys.py, then rt fmt in crates/keys and in crates/lookup
FOLDER holds tao's keyboard.rs and platform_impl/windows/keycode.rs. What a file holds between two marks is replaced; a file without marks is written whole."""
import os
import re
import sys

TAO = os.environ.get('TAO_SRC', '')
ENTRY = re.compile(r',(?![^(]*\))')


def read(name):
    with open(os.path.join(TAO, name), encoding='utf-8') as f:
        return f.read()


def cases(source, head):
    """The cases of a Rust enum, in order, without comments and attributes."""
    body = re.search(r'pub enum ' + re.escape(head) + r' \{(.*?)\n\}', source, re.S).group(1)
    body = re.sub(r'//.*', '', body)
    body = re.sub(r'#\[[^\]]*\]', '', body)
    return [c.strip() for c in ENTRY.split(body) if c.strip()]


def arms(source):
    """The arms of keycode_from_scancode, in the order of their first codes: (codes ascending, key code)."""
    source = re.sub(r'//.*', '', source[source.index('pub fn keycode_from_scancode'):])
    pairs = re.findall(r'(0x[0-9A-F]{4}) => KeyCode::(\w+),', source)
    assert len(pairs) + 1 == source.count('=>')
    codes = {}
    for code, key in pairs:
        codes.setdefault(key, []).append(code)
    return [(sorted(cs), key) for key, cs in codes.items()]


KEYBOARD = read('keyboard.rs')
KEY = cases(KEYBOARD, "Key<'a>")
CODE = cases(KEYBOARD, 'KeyCode')
PLAIN = CODE[1:]
ARMS = arms(read('platform_impl/windows/keycode.rs'))
PLACES = ['Control', 'NumLock', 'Enter', 'Tab', 'Space', 'Backspace', 'Escape', 'Pause']
assert KEY[0].startswith('Character(') and KEY[1].startswith('Unidentified(') and KEY[2].startswith('Dead(')
assert CODE[0].startswith('Unidentified(') and not any('(' in c for c in PLAIN + KEY[3:])


def lines(form, items):
    return ''.join(form(i, x) + '\n' for i, x in enumerate(items))


def snake(name):
    return re.sub('(?<=[a-z])(?=[A-Z])', '_', name).lower()


def places():
    def one(name, value):
        return f'\nabbrev pub {name} : ℕ\n{name} = {value}\n'
    return ('-- Places of cases in tao\'s Key, counted from 0: Character is at 0, Unidentified at 1, Dead at 2, and the keys without a value follow.\n'
            '-- Assumes nothing.\nuse Rattle.std.specs.Prelude.{ℕ}\n'
            '\n-- the first case without a value' + one('first_named', 3)
            + '\n-- how many cases there are' + one('key_cases', len(KEY))
            + ''.join(one(snake(p), KEY.index(p)) for p in PLACES))


def place_code():
    def one(name, value):
        public = 'pub ' if name in ('CONTROL', 'NUM_LOCK', 'PAUSE') else ''
        return f'{public}const {name}: u16 = {value};\n\n'
    return (one('FIRST_NAMED', 3) + one('KEY_CASES', len(KEY))
            + ''.join(one(snake(p).upper(), KEY.index(p)) for p in PLACES))


def number_specs():
    def clauses(name, first, plain):
        return f'{name} (kc.Unidentified c) = {first}\n' + lines(lambda i, c: f'{name} kc.{c} = {plain(i + 1)}', PLAIN)
    return f'''-- A key code's place in tao's KeyCode, and the key code at a place.
-- Assumes nothing.
use Rattle.std.specs.Prelude.{{ℕ, List, [], ◌∷◌}}
use Rattle.area.specs.Look.{{assoc}}
use Rattle.keys.specs.declared.NativeKeyCode.{{NativeKeyCode}}
use Rattle.keys.specs.declared.NativeKeyCode.TheVariants as nat
use Rattle.keys.specs.declared.key_code.KeyCode.{{KeyCode}}
use Rattle.keys.specs.declared.key_code.KeyCode.TheVariants as kc

-- how many cases there are
abbrev pub code_cases : ℕ
code_cases = {len(CODE)}

-- the place of the case, from 0
unfoldable pub code_number : KeyCode → ℕ
{clauses('code_number', '0', str)}
-- the native code that an unidentified key code holds
unfoldable pub code_native : KeyCode → NativeKeyCode
{clauses('code_native', 'c', lambda i: 'nat.Unidentified')}
-- the key codes that hold nothing, each with its place
unfoldable pub codes : List (ℕ × KeyCode)
codes =
{lines(lambda i, c: f'    ({i + 1}, kc.{c}) ∷', PLAIN)}    []

-- the key code at a place; at 0 and past the last, the unidentified one with that native code
unfoldable pub code_at : ℕ → NativeKeyCode → KeyCode
code_at n c = assoc codes (kc.Unidentified c) n
'''


def enum():
    return f'// How many cases tao\'s KeyCode has.\nconst CODE_CASES: u64 = {len(CODE)};\n\n// The place of a physical key, in tao\'s order.\n' + '#[derive(Clone, Copy)]\npub enum KeyCode {\n    Unidentified(NativeKeyCode),\n' + lines(lambda i, c: f'    {c},', PLAIN) + '}\n'


def number_code():
    arms = lines(lambda i, c: f'            KeyCode::{c} => {i + 1},', PLAIN)
    return f'''// The place of a key code in tao's KeyCode; `as` takes no enum that has a case with a value.
impl From<KeyCode> for u16 {{
    ghost from_gives = {{ λ c n. n ≡ code_number c }};

    #[tactic(auto, unfolding(crate::specs::Number::code_number))]
    fn from(c: KeyCode) -> u16 {{
        match c {{
            KeyCode::Unidentified(_) => 0,
{arms}        }}
    }}
}}
'''


def each_code_proof():
    return f'''-- What is checked of each key code by computing: its number leads back to it and is below the number of cases.
-- Assumes nothing.
use mathlib.Core.Path.{{◌≡◌, refl}}
use mathlib.Core.Bool.{{true}}
use lib.Dec.{{ltb}}
use Rattle.area.specs.Look.{{assoc}}
use Rattle.keys.specs.declared.key_code.KeyCode.{{KeyCode}}
use Rattle.keys.specs.declared.key_code.KeyCode.TheVariants as kc
use Rattle.keys.specs.Number.{{code_cases, code_number, code_native, codes, code_at}}

pub each-code : (c : KeyCode) → (code_at (code_number c) (code_native c) ≡ c) × (ltb (code_number c) code_cases ≡ true)
unfolding code_number code_native code_at codes assoc
each-code (kc.Unidentified held) = (refl, refl)
{lines(lambda i, c: f'each-code kc.{c} = (refl, refl)', PLAIN)}'''


def scan_code():
    arms = lines(lambda i, a: f'        {" | ".join(a[0])} => KeyCode::{a[1]},', ARMS)
    return f'''#[tactic(auto, unfolding(crate::specs::Codes::key_code_of, crate::specs::Codes::scan_codes, area::specs::Look::assoc))]
pub fn keycode_from_scancode(scancode: u16) -> KeyCode
    ensures {{ result ≡ key_code_of scancode }}
{{
    match scancode {{
{arms}        _ => KeyCode::Unidentified(NativeKeyCode::Windows(scancode)),
    }}
}}
'''


def scan_specs():
    rows = ''.join(f'    ({code}, kc.{key}) ∷\n' for codes, key in ARMS for code in codes)
    return f'''-- The key code of a scan code, as tao's keycode.rs lists them (SCOPE 5.4).
-- Assumes nothing.
use Rattle.std.specs.Prelude.{{ℕ, List, [], ◌∷◌}}
use Rattle.area.specs.Look.{{assoc}}
use Rattle.keys.specs.declared.NativeKeyCode.TheVariants as nat
use Rattle.keys.specs.declared.key_code.KeyCode.{{KeyCode}}
use Rattle.keys.specs.declared.key_code.KeyCode.TheVariants as kc

-- the codes that it lists; where two share a key, the lower one first
unfoldable pub scan_codes : List (ℕ × KeyCode)
scan_codes =
{rows}    []

-- an unlisted code is unidentified, with the code inside
unfoldable pub key_code_of : ℕ → KeyCode
key_code_of n = assoc scan_codes (kc.Unidentified (nat.Windows n)) n
'''


def scan_proof():
    keys = ''.join('    (' + ' ∷ '.join(codes) + ' ∷ []) ∷\n' for codes, _ in reversed(ARMS))
    return f'''-- An unlisted code is in no arm, and so not in the table.
-- Assumes nothing.
use Rattle.std.proofs.Common.{{rules, ℕ, List, [], ◌∷◌}}
use Rattle.area.proofs.Switch.{{missed}}
use Rattle.lookup.specs.Codes.{{scan_codes, key_code_of}}
use Rattle.lookup.proofs.keycode.keycode_from_scancode.Goals as goal

-- the arms' codes, the last arm first
abbrev arms : List (List ℕ)
arms =
{keys}    []

pub returns-in_default : goal.returns-in_default
unfolding key_code_of scan_codes
returns-in_default c = missed arms _ _ scan_codes (search rules) tt
'''


def write(path, text):
    os.makedirs(os.path.dirname(path), exist_ok=True)
    with open(path, 'w', encoding='utf-8') as f:
        f.write(text)


def replace(path, **parts):
    """Puts each part between its marks, `// NAME: from tao's files` and `// NAME: end`."""
    with open(path, encoding='utf-8') as f:
        text = f.read()
    for name, part in parts.items():
        marks = f"// {name}: from tao's files\n", f'// {name}: end\n'
        assert text.count(marks[0]) == 1 and text.count(marks[1]) == 1, (path, name)
        a, b = text.index(marks[0]) + len(marks[0]), text.index(marks[1])
        text = text[:a] + part + text[b:]
    write(path, text)


def main():
    write('crates/keys/specs/Places.antt', places())
    replace('crates/keys/src/lib.rt', places=place_code())
    write('crates/keys/specs/Number.antt', number_specs())
    replace('crates/keys/src/key_code.rt', KeyCode=enum(), code_number=number_code())
    write('crates/keys/proofs/key_code/EachCode.antt', each_code_proof())
    write('crates/lookup/specs/Codes.antt', scan_specs())
    write('crates/lookup/proofs/keycode/keycode_from_scancode/Answers.antt', scan_proof())
    replace('crates/lookup/src/keycode.rt', keycode_from_scancode=scan_code())


if __name__ == '__main__':
    sys.exit(main())

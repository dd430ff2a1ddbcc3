#!/bin/bash
# Prints the candidates for one point of the design pass (docs/DESIGN-PASS.md), or without an argument how many each command prints.
cd "$(dirname "$0")/.." || exit 1

# own enums
point_1a() {
grep -nE '^(pub(\(crate\))? )?enum ' crates/*/src/*.rt
}

# arms and lets over Option and Result
point_1b() {
grep -nE '(Ok|Err|Some)\(.*\) =>|None =>|let \(?(Ok|Err|Some)\(|if let ' crates/*/src/*.rt
}

# sentinel numbers and values beside a flag
point_1c() {
grep -nE 'MAX_[A-Z]+ \+ 1\b|BLANK: u16|cell: BLANK|^    bytes\.len\(\)$|pub hole: usize|    lead: usize|pub place: usize|width > 0|bool,$|bool\) ' crates/*/src/*.rt | grep -v '//'
}

# a bool answered while a value is left in a lent buffer
point_1d() {
python3 -c "
import re,glob
for f in sorted(glob.glob('crates/*/src/*.rt')):
  t=open(f).read()
  for m in re.finditer(r'^ *(?:pub(?:\(crate\))? )?fn (\w+)[^{;]*?\) -> bool',t,re.M|re.S):
    if '&mut' in m.group(0): print(f'{f}:{t[:m.start()].count(chr(10))+1}: {m.group(1)}')
"
}

# ? and then the same again, and results thrown away
point_1e() {
python3 -c "
import re,glob
for f in sorted(glob.glob('crates/*/src/*.rt')):
  t=open(f).read()
  for m in re.finditer(r'let _ = |let (\w+) = [^;{}]*\?;\s*Ok\((?:Some\()?\1\)|\w[^;{}]*\?;\s*Ok\((?:\(\)|None)\)\s*\}',t):
    s=m.start()
    if '?;' in m.group(0): s=m.start()+m.group(0).rindex('?;')
    print(f'{f}:{t[:s].count(chr(10))+1}: '+' '.join(m.group(0).split())[-70:])
"
}

# if that chooses between Some and None
point_1f() {
grep -nE '^\s+Some\(' crates/*/src/*.rt
}

# pairs of repeated code
point_2a() {
d=$(mktemp -d); for f in $(git ls-files 'crates/*.rt'); do mkdir -p "$d/${f%/*}"; cp "$f" "$d/$f.rs"; done
duplicates --repo "$d" --most 200 --seconds 120 | grep '^D'
}

# pairs of impl heads of one trait, as a cross-check
point_2b() {
grep -nE '^impl.* for ' crates/*/src/*.rt
}

# the cost of counts written out
point_2c() {
grep -nE '2 \* [a-z.]*wrong|saturating_mul\(2\)' crates/*/src/*.rt
}

# code literals and tables written again
point_2d() {
grep -nE 'symbols: PhantomData,$|1, 0, 1, 1, 1, 1, 1, 1, 0, 0, 1, 1' crates/*/src/*.rt
}

# every loop
point_3() {
grep -nE '^\s*(for|while|loop)\b' crates/*/src/*.rt
}

# types and their derives
point_4a() {
grep -nB1 -E '^(pub(\(crate\))? )?(struct|enum) ' crates/*/src/*.rt | grep -E 'struct|enum'
}

# derives of equality or order
point_4b() {
grep -nE 'derive\(.*(PartialEq|Eq|Ord)' crates/*/src/*.rt
}

# casts
point_4c() {
grep -nE '[])a-z_>] as (u8|u16|u32|u64|usize|char)\b' crates/*/src/*.rt
}

# conversions and words by methods
point_4d() {
grep -nE '^impl.* From<|fn (number|word|layer|refusal)\(self|::from\(' crates/*/src/*.rt
}

# comparing by hand: assertions on fields, chains of tests
point_4e() {
grep -nE 'assert(_eq)?!\(rt; (refusal\.|counts\.|\(counts|table\.[km] ==|first\.|one\[|work\[|fault\.layer|is_put|is_all|\*x|a\.len)|number\(\) <= |1 <= |2 <= [a-z]|< b.0.|== d \{|Vote \{$' crates/*/src/*.rt
}

# facts in the contracts of three or more functions
point_5a() {
python3 - <<'E'
import re,glob,collections
def split(c):
  c=c.strip()
  while c.startswith('(') and c.endswith(')'):
    d=0
    for i,ch in enumerate(c):
      d+=(ch=='(')-(ch==')')
      if d==0: break
    if i<len(c)-1: break
    c=c[1:-1].strip()
  d=0;o=[''];k=0
  while k<len(c):
    d+=(c[k] in '([')-(c[k] in ')]')
    if d==0 and c[k]=='×': o.append('')
    else: o[-1]+=c[k]
    k+=1
  return [c] if len(o)==1 else [y for x in o for y in split(x)]
F=collections.defaultdict(set)
for f in sorted(glob.glob('crates/*/src/*.rt')):
  for l in open(f):
    m=re.match(r' *(?:pub(?:\(crate\))? )?fn (\w+)',l)
    if m: fn=f.split('/')[1]+'/'+f.split('/')[-1][:-3]+' '+m.group(1)
    m=re.match(r' *(?:requires|ensures)(?: \w+)? \{ (?:OnOk result )?(.*) \}',l)
    if m:
      for c in split(m.group(1)): F[re.sub(r'\.(now|old)\b','',c)].add(fn)
for c,v in sorted(F.items(),key=lambda x:(-len(x[1]),x[0])):
  if len(v)>2: print(len(v),'|',c,'|',', '.join(sorted(v)))
E
}

# groups of three or more parameters that four or more functions of one crate take
point_5b() {
python3 - <<'E'
import re,glob,collections,itertools
S=collections.defaultdict(dict)
for f in sorted(glob.glob('crates/*/src/*.rt')):
  t=open(f).read()
  for m in re.finditer(r'^ *(?:pub(?:\(crate\))? )?fn (\w+)(?:<[^(]*>)?\(([^)]*(?:\([^)]*\)[^)]*)*)\)',t,re.M):
    S[f.split('/')[1]][f.split('/')[-1][:-3]+' '+m.group(1)+':'+str(t[:m.start()].count(chr(10))+1)]=set(re.findall(r'(\w+): ',m.group(2)))
for c,fs in sorted(S.items()):
  by=collections.defaultdict(list)
  for g in {g for v in fs.values() for r in range(3,9) for g in itertools.combinations(sorted(v),r)}:
    s=frozenset(k for k,v in fs.items() if set(g)<=v)
    if len(s)>3: by[s].append(g)
  for s,g in sorted(by.items(),key=lambda x:(-len(x[0]),sorted(x[0]))): print(c,len(s),', '.join(max(g,key=len)),'|',', '.join(sorted(s)))
E
}

# fixed buffers and their parts
point_6a() {
grep -nE '\[[a-z0-9]+; [A-Z0-9_]+\]|\[0\.\.[a-z]|\.\.[a-z]+ \+ n2|\.\.start|split_at_mut|&Vec<' crates/*/src/*.rt
}

# index arithmetic and one index for several slices
point_6b() {
grep -nE '\* (n2|m) \+ |\[k \+ j\]|weights\[j\]|outcomes\[|word\[i\]|line\[[jl]\]|rows\[' crates/*/src/*.rt | grep -v 'requires\|ensures\|rest @'
}

# cutting bytes by a found place
point_6c() {
grep -nE 'find_byte\(|\[end\.\.\]|\[0\.\.end\]' crates/*/src/*.rt
}

# matches
point_7a() {
grep -nE '\bmatch ' crates/*/src/*.rt | grep -v '//'
}

# a limit tested in a method, with the call of one code or another
point_7b() {
grep -nE 'if !?is_(repeatable|summable|tabulable)\b' crates/*/src/*.rt
}

# closures, impl Fn, dyn, Box
point_7c() {
grep -nE 'impl Fn|dyn |Box<|move \||\(\|[a-z_, ]+\| ' crates/*/src/*.rt
}

# answers that cite no lemma
point_8a() {
python3 - <<'E'
import re,glob
ok=set('arith rules nat_tests refl sym ap ap₂ subst ◌∙◌ cond eqb leb length take drop get_or set replicate suc string_bytes codes true false min max'.split())
for c in 'alphabet code trivial repetition sum table product sheet lines job forecast'.split():
  for f in sorted(glob.glob(f'crates/{c}/proofs/**/Answers.antt',recursive=True)):
    t=open(f).read(); lem=set()
    for a,b in re.findall(r'^use (\S+?)\.\{(.*)\}',t,re.M):
      if re.search(r'\.proofs\.|^native|^lib|Lemmas|Laws|Numbers|Field|borrow',a) and '.Goals' not in a: lem|={x.strip() for x in b.split(',') if re.match(r'[a-z]',x.strip())}
    for g in re.split(r'^pub ',t,flags=re.M)[1:]:
      if not set(re.findall(r'[^\s(),;{}.]+',g.split('\n',1)[1]))&(lem-ok): print(f'{f}:{t[:t.index(g)].count(chr(10))+1}: '+g.split(' ')[0])
E
}

# answers of one line that are omega, grind, search, cc, record or refl
point_8b() {
python3 - <<'E'
import re,glob
for c in 'alphabet code trivial repetition sum table product sheet lines job forecast'.split():
  for f in sorted(glob.glob(f'crates/{c}/proofs/**/Answers.antt',recursive=True)):
    t=open(f).read()
    for m in re.finditer(r'^pub (\S+) : .*\n(?:unfolding.*\n)?\1 (?:g )?c = ((?:omega|grind|cc|search|record)\b[^\n]*|\(refl[^\n]*)(?=\n\n|\n?\Z)',t,re.M): print(f'{f}:{t[:m.start()].count(chr(10))+1}: {m.group(1)} = {m.group(2)[:110]}')
E
}

# let lines that stand three times or more in answers
point_8c() {
python3 - <<'E'
import re,glob,collections
C=collections.defaultdict(list)
for c in 'alphabet code trivial repetition sum table product sheet lines job forecast'.split():
  for f in glob.glob(f'crates/{c}/proofs/**/Answers.antt',recursive=True):
    for l in open(f):
      if l.strip().startswith('let '): C[l.strip()].append(f)
for l,v in sorted(C.items(),key=lambda x:(-len(x[1]),x[0])):
  if len(v)>2: print(len(v),len(set(v)),l)
E
}

# lemmas or definitions whose statement and proof are the same up to names
point_8d() {
python3 - <<'E'
import re,glob,collections
D=collections.defaultdict(list)
for c in 'alphabet code trivial repetition sum table product sheet lines job forecast algebra'.split():
  for f in sorted(glob.glob(f'crates/{c}/proofs/*.antt')+glob.glob(f'crates/{c}/specs/*.antt')):
    for m in re.finditer(r'^( *)(?:abbrev )?(?:pub )?([^\s:()]+) : ([^\n]*)\n((?:(?!\n\n)[\s\S])*?)(?=\n\n|\n?\Z)',open(f).read(),re.M):
      s=m.group(3)+' @ '+m.group(4).replace(m.group(2)+' ','F ')
      if '→' not in m.group(3) and '≡' not in m.group(3): continue
      n=[]
      for b in re.findall(r'\(([^(){}→≡]+?) :',s): n+=b.split()
      s=re.sub(r'\b(Name|Call|Generator)\b','ℕ',s)
      for a in re.findall(r'^F ([^=]*)=',m.group(4).replace(m.group(2)+' ','F '),re.M): n+=re.findall(r"[\w']+",a)
      n=list(dict.fromkeys(n))
      for b in re.findall(r'λ \(?([\w ]+?)[.:) ]',s): n+=[x for x in b.split() if x not in n]
      k=re.sub(r"[\w']+",lambda w:'v%d'%n.index(w.group(0)) if w.group(0) in n else w.group(0),s)
      D[' '.join(k.split())].append(f'{f}:{m.group(2)}')
for k,v in sorted(D.items(),key=lambda x:-len(x[1])):
  if len(v)>1: print(len(v),', '.join(v))
E
}

# pairs of repeated proof text
point_8e() {
d=$(mktemp -d); for f in $(git ls-files 'crates/*.antt'); do mkdir -p "$d/${f%/*}"; cp "$f" "$d/$f.rs"; done
duplicates --repo "$d" --most 200 --seconds 120 | grep '^D'
}

# answer files
point_8f() {
find crates -path "*/proofs/*" -name Answers.antt -not -path "*/out/*"
}

if [ $# -eq 1 ]; then
    "point_$1"
else
    for n in 1a 1b 1c 1d 1e 1f 2a 2b 2c 2d 3 4a 4b 4c 4d 4e 5a 5b 6a 6b 6c 7a 7b 7c 8a 8b 8c 8d 8e 8f; do
        echo "$n $("point_$n" | wc -l)"
    done
fi

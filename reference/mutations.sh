#!/bin/sh
# Applies wrong edits of the rules, one at a time, to a copy under target/, and names the tests that fail.
# Usage: ./mutations.sh [name...]            (from the package's directory)
#        PROVED=1 ./mutations.sh [name...]   only the differential test with the proved library, which `make library` writes,
#                                            or the one in PROVED_LIB_DIR
#        TESTS="--lib --test lead" ./mutations.sh [name...]   only these of the reference's own tests
set -eu
only=" $* "
known=" "
place=target/mutations
tests=${TESTS:-}
if [ -n "${PROVED:-}" ]; then
    tests="--features proved --test differential"
    PROVED_LIB_DIR=$(cd "${PROVED_LIB_DIR:-../target/staticlib}" && pwd)
    export PROVED_LIB_DIR
fi
rm -rf "$place/copy"
mkdir -p "$place/copy"
# where Cargo.toml looks for the package over the library
ln -sfn ../../../rust "$place/rust"

# try NAME FILE OLD NEW: OLD is a line's exact text (without indent), found once in FILE.
try() {
    known="$known$1 "
    case "$only" in "  " | *" $1 "*) ;; *) return 0 ;; esac
    rm -rf "$place/copy"
    mkdir -p "$place/copy"
    cp -r Cargo.toml src tests "$place/copy/"
    found=$(awk -v old="$3" '{ line = $0; sub(/^ +/, "", line) } line == old { n++ } END { print n + 0 }' "$2")
    if [ "$found" != 1 ]; then
        echo "$1: found $found times in $2" >&2
        exit 1
    fi
    awk -v old="$3" -v new="$4" '{ line = $0; sub(/^ +/, "", line) } line == old { print new; next } { print }' \
        "$2" > "$place/copy/$2"
    echo "== $1"
    log="$place/$1.log"
    if (cd "$place/copy" && CARGO_TARGET_DIR=../build cargo test --release --offline --no-fail-fast $tests) > "$log" 2>&1
    then
        echo "   NOT CAUGHT"
    else
        sed -n 's/^test \(.*\) \.\.\. FAILED$/   \1/p' "$log"
        grep -q '^test .* FAILED$' "$log" || echo "   no test has a name: see $log"
        grep -h -o '^n [0-9]*, t [0-9]*\(, seed [0-9]*\(, record [0-9]*\)\{0,1\}\)\{0,1\}: [^{]*' "$log" | grep -v ': Found' | cut -c1-110 | sed 's/^/     /' | head -8 || true
        grep -h -o '^seed [0-9]*, .*' "$log" | cut -c1-150 | sed 's/^/     /' | head -2 || true
        grep -q '^error' "$log" && grep '^error' "$log" | grep -v 'test failed\|target' | sed 's/^/   /' || true
    fi
}

try own-old-estimate-left-out src/step.rs \
    'settled' 'previous == next && members(next & !bit(a)).all(|m| self.sent[row(m, round)].same(&self.processes[a].estimate))'
try zero-started-as-absent src/step.rs \
    'p.estimate.set(a, value);' 'if value != Value::ZERO { p.estimate.set(a, value); }'
try zero-filled-as-absent src/layout.rs \
    'for i in members(other.present & !self.present) {' \
    'let other = &GlobalData { present: members(other.present).filter(|&i| other.values[i] != 0).map(bit).sum(), ..*other }; for i in members(other.present & !self.present) {'
try zero-shown-as-absent src/layout.rs \
    '(self.present & bit(i) != 0).then(|| self.value(i))' '(self.present & bit(i) != 0 && self.values[i] != 0).then(|| self.value(i))'
try received-dropped-once-suspected src/step.rs \
    'Ok(p.current & arrived)' 'Ok(p.current & arrived & !p.suspected)'
try decide-on-equal-estimates-alone src/step.rs \
    'let mut settled = previous == next;' 'let mut settled = true || previous == next;'
try estimate-changed-since-the-opening src/step.rs \
    'let received = &self.sent[row(m, round)];' 'let received = &{ let _ = round; self.processes[m].estimate };'

# Not among the paper's slips: that each property check can fail.
try never-decide-early src/step.rs \
    'let mut settled = previous == next;' 'let mut settled = false && previous == next;'
try early-estimates-lost src/step.rs \
    'if !p.has_decided() && (early || expected) {' 'if !p.has_decided() && expected {'
try decision-sent-back src/step.rs \
    'self.decide(b, bit(a));' 'self.decide(b, 0);'
try close-without-waiting src/step.rs \
    'if p.current & !(arrived | p.suspected) != 0 {' 'if false {'
try suspect-twice src/step.rs \
    'if self.crashed & bit(b) == 0 || p.suspected & bit(b) != 0 {' 'if self.crashed & bit(b) == 0 {'
try value-changed-at-start src/step.rs \
    'p.estimate.set(a, value);' 'p.estimate.set(a, Value::from_word(value.word() ^ 1));'
try decide-again src/step.rs \
    'if self.processes[b].round != 0 && !self.processes[b].has_decided() {' 'if self.processes[b].round != 0 {'

# The other calls, for the differential test.
try tally-wraps src/counters.rs \
    'self.accepted = self.accepted.saturating_add(1);' 'self.accepted = self.accepted.wrapping_add(1);'
try spent-before-empty src/run.rs \
    'if rest.is_empty() {' 'if rest.is_empty() && accepted != budget {'
try list-without-last-round src/read.rs \
    '(0..=self.t + 1).flat_map(senders).flat_map(move |(a, r)| {' '(0..=self.t).flat_map(senders).flat_map(move |(a, r)| {'
try undecided-before-short-slice src/read.rs \
    'let out = out.get_mut(..self.n as usize).ok_or(Refusal::Slice)?;' \
    'if !p.has_decided() { return Err(Refusal::Undecided); } let out = out.get_mut(..self.n as usize).ok_or(Refusal::Slice)?;'
try unused-processes-not-checked src/layout.rs \
    'let processes = self.processes.iter().fold(0, |used, p| used | p.used());' \
    'let processes = self.processes.iter().take(self.n as usize).fold(0, |used, p| used | p.used());'
rank='(portions, diet, i)'
try lead-ties-to-highest src/aggregates.rs "$rank" '(portions, i)'
try change-of-32-bits src/aggregates.rs \
    'Ok(portions(entries[i]) as i64 - standing as i64)' 'Ok((portions(entries[i]) as u32).wrapping_sub(standing) as i32 as i64)'

# The byte in `decided`.
try decided-only-by-1 src/layout.rs \
    'self.decided != 0' 'self.decided == 1'
try decided-by-the-low-bit src/layout.rs \
    'self.decided != 0' 'self.decided & 1 != 0'
try another-byte-is-damage src/layout.rs \
    'used & !self.everyone() == 0 && self.processes.iter().all(|p| p.round <= self.t + 1)' \
    'used & !self.everyone() == 0 && self.processes.iter().all(|p| p.round <= self.t + 1 && p.decided <= 1)'
try decision-keeps-the-byte src/step.rs \
    'p.decided = 1;' ''
try decision-writes-255 src/step.rs \
    'p.decided = 1;' 'p.decided = 255;'
try decision-to-the-decided-writes-1 src/step.rs \
    'if self.processes[b].round != 0 && !self.processes[b].has_decided() {' \
    'if self.processes[b].has_decided() { self.processes[b].decided = 1; } if self.processes[b].round != 0 && !self.processes[b].has_decided() {'
try start-clears-the-byte src/step.rs \
    'p.previous = everyone;' 'p.previous = everyone; p.decided = 0;'
try send-makes-the-byte-1 src/step.rs \
    'p.outbox &= !bit(b);' 'p.outbox &= !bit(b); p.decided = p.decided.min(1);'
try only-by-1-in-send src/step.rs \
    'let slot = if p.has_decided() { 0 } else { p.round as usize };' \
    'let slot = if p.decided == 1 { 0 } else { p.round as usize };'
try only-by-1-at-an-estimate src/step.rs \
    'if !p.has_decided() && (early || expected) {' 'if p.decided != 1 && (early || expected) {'
try only-by-1-at-a-decision src/step.rs \
    'if self.processes[b].round != 0 && !self.processes[b].has_decided() {' \
    'if self.processes[b].round != 0 && self.processes[b].decided != 1 {'
try only-by-1-in-close src/step.rs \
    'if p.round == 0 || p.has_decided() || p.outbox != 0 {' 'if p.round == 0 || p.decided == 1 || p.outbox != 0 {'
try only-by-1-in-global-data src/read.rs \
    'if !p.has_decided() {' 'if p.decided != 1 {'

# How a round ended.
try agreed-where-both-hold src/step.rs \
    'if self.in_last_round(a) {' 'if self.in_last_round(a) && !settled {'
try arriving-decision-as-a-close src/step.rs \
    'Event::Arrive { a, b, message } => self.arrive(a, b, message)?,' \
    'Event::Arrive { a, b, message } => { self.arrive(a, b, message)?; if message == Message::Decision { return Ok(Closing::Agreed); } }'
try first-close-of-a-run src/run.rs \
    'Ok(stepped) => closing = stepped.or(closing),' 'Ok(stepped) => closing = closing.or(stepped),'
try last-record-of-a-run src/run.rs \
    'Ok(stepped) => closing = stepped.or(closing),' 'Ok(stepped) => closing = stepped,'
try largest-closing-of-a-run src/run.rs \
    'Ok(stepped) => closing = stepped.or(closing),' \
    'Ok(stepped) => closing = if stepped.number() > closing.number() { stepped } else { closing },'
try none-where-a-run-ends-refused src/run.rs \
    'Err(refusal) => break Cause::Refused(refusal.number()),' \
    'Err(refusal) => { closing = Closing::None; break Cause::Refused(refusal.number()); }'
try refused-close-counts-in-a-run src/run.rs \
    'Err(refusal) => break Cause::Refused(refusal.number()),' \
    'Err(refusal) => { if refusal == Refusal::Waiting { closing = Closing::NextRound; } break Cause::Refused(refusal.number()); }'

# Standing values in the total.
value='let value = |i: usize| if present & bit(i) != 0 { portions(entries[i]) as u32 } else { standing[i] };'
try absent-as-nought src/aggregates.rs \
    "$value" \
    'let value = |i: usize| if present & bit(i) != 0 { portions(entries[i]) as u32 } else { 0 };'
try word-under-absent src/aggregates.rs \
    "$value" \
    'let value = |i: usize| portions(entries[i]) as u32;'
try present-as-standing src/aggregates.rs \
    "$value" \
    'let value = |i: usize| standing[i];'
try present-zero-as-standing src/aggregates.rs \
    "$value" \
    'let value = |i: usize| if present & bit(i) != 0 && entries[i] != 0 { portions(entries[i]) as u32 } else { standing[i] };'
try neighbours-standing src/aggregates.rs \
    "$value" \
    'let value = |i: usize| if present & bit(i) != 0 { portions(entries[i]) as u32 } else { standing[(i + 1) % n as usize] };'
try standing-taken-in-turn src/aggregates.rs \
    "$value" \
    'let value = |i: usize| if present & bit(i) != 0 { portions(entries[i]) as u32 } else { standing[(!present & (bit(i) - 1)).count_ones() as usize] };'
try total-of-32-bits src/aggregates.rs \
    'Ok((0..n as usize).map(|i| value(i) as u64).sum())' 'Ok((0..n as usize).map(value).fold(0, u32::wrapping_add) as u64)'
try standing-length-unchecked src/aggregates.rs \
    'if standing.len() != n as usize {' 'if false {'
try standing-length-at-least-n src/aggregates.rs \
    'if standing.len() != n as usize {' 'if standing.len() < n as usize {'
try standing-length-at-most-n src/aggregates.rs \
    'if standing.len() != n as usize {' 'if standing.len() > n as usize {'
try standing-length-only-where-read src/aggregates.rs \
    'if standing.len() != n as usize {' 'if present != all(n) && standing.len() != n as usize {'
try standing-length-before-1 src/aggregates.rs \
    'pub fn total(n: u8, entries: &[u32], present: u16, standing: &[u32]) -> Result<u64, Refusal> {' \
    'pub fn total(n: u8, entries: &[u32], present: u16, standing: &[u32]) -> Result<u64, Refusal> { if standing.len() != n as usize { return Err(Refusal::Slice); }'
try standing-length-before-5 src/aggregates.rs \
    'pub fn total(n: u8, entries: &[u32], present: u16, standing: &[u32]) -> Result<u64, Refusal> {' \
    'pub fn total(n: u8, entries: &[u32], present: u16, standing: &[u32]) -> Result<u64, Refusal> { check_n(n)?; if standing.len() != n as usize { return Err(Refusal::Slice); }'

# The list in transit.
list='for (place, message) in out.chunks_exact_mut(3).zip(self.messages()) {'
# order NAME KEY: the list in another order.
order() {
    try "$1" src/read.rs "$list" \
        "let mut sorted: Vec<[u8; 3]> = self.messages().collect(); sorted.sort_by_key(|&[a, b, r]| $2); for (place, message) in out.chunks_exact_mut(3).zip(sorted) {"
}
# only NAME CONDITION: only these messages are listed, and counted.
only() {
    try "$1" src/read.rs 'members(receivers).map(move |b| [a as u8 + 1, b as u8 + 1, r])' \
        "members(receivers).filter(move |&b| $2).map(move |b| [a as u8 + 1, b as u8 + 1, r])"
}
order sender-before-round '(a, r, b)'
order by-its-bytes '(a, b, r)'
order receiver-before-sender '(r, b, a)'
order decisions-by-receiver 'if r == 0 { (r, b, a) } else { (r, a, b) }'
order decisions-last '(r.wrapping_sub(1), a, b)'
order later-rounds-first '(r.wrapping_neg(), a, b)'
order higher-senders-first '(r, !a, b)'
order higher-receivers-first '(r, a, !b)'
order receivers-above-8-first '(r, a, b <= 8, b)'
order senders-as-text '(r, a.to_string(), b)'
only crashed-senders-not-listed '!self.has_crashed(a)'
only crashed-receivers-not-listed '!self.has_crashed(b)'
only estimates-of-the-decided-not-listed 'r == 0 || !self.processes[a].has_decided()'
only to-the-decided-not-listed '!self.processes[b].has_decided()'
only to-the-unstarted-not-listed 'self.processes[b].round != 0'
only rounds-left-not-listed 'r == 0 || r >= self.processes[b].round'
only suspected-senders-not-listed 'self.processes[b].suspected & bit(a) == 0'
only own-messages-not-listed 'b != a'
try list-without-decisions src/read.rs \
    '(0..=self.t + 1).flat_map(senders).flat_map(move |(a, r)| {' '(1..=self.t + 1).flat_map(senders).flat_map(move |(a, r)| {'
try decisions-listed-twice src/read.rs \
    '(0..=self.t + 1).flat_map(senders).flat_map(move |(a, r)| {' \
    'std::iter::once(0).chain(0..=self.t + 1).flat_map(senders).flat_map(move |(a, r)| {'
try rounds-past-the-last-listed src/read.rs \
    '(0..=self.t + 1).flat_map(senders).flat_map(move |(a, r)| {' \
    '(0..Bench::SLOTS as u8).flat_map(senders).flat_map(move |(a, r)| {'
try senders-past-n-listed src/read.rs \
    'let senders = move |r| members(self.everyone()).map(move |a| (a, r));' \
    'let senders = move |r| members(u16::MAX).map(move |a| (a, r));'
try last-message-not-listed src/read.rs \
    'let count = self.count_in_transit();' 'let count = self.count_in_transit().saturating_sub(1);'
try round-written-first src/read.rs \
    'place.copy_from_slice(&message);' 'place.copy_from_slice(&[message[2], message[0], message[1]]);'
try receiver-written-first src/read.rs \
    'place.copy_from_slice(&message);' 'place.copy_from_slice(&[message[1], message[0], message[2]]);'
room='let out = out.get_mut(..3 * count).ok_or(Refusal::Slice)?;'
try what-fits-is-written src/read.rs "$room" \
    "out.chunks_exact_mut(3).zip(self.messages()).for_each(|(place, message)| place.copy_from_slice(&message)); $room"
try a-byte-short-is-taken src/read.rs "$room" \
    "let whole = if out.len() + 1 == 3 * count { 3 * count - 3 } else { 3 * count }; let out = out.get_mut(..whole).ok_or(Refusal::Slice)?;"
try longer-slice-refused src/read.rs "$room" \
    "if out.len() > 3 * count { return Err(Refusal::Slice); } $room"
try bytes-past-the-list-cleared src/read.rs "$room" \
    "if let Some(past) = out.get_mut(3 * count..) { past.fill(0); } $room"
try short-slice-before-damage src/read.rs \
    'pub fn list_in_transit(&self, out: &mut [u8]) -> Result<usize, Refusal> {' \
    'pub fn list_in_transit(&self, out: &mut [u8]) -> Result<usize, Refusal> { let bits: u32 = self.in_transit.iter().map(|set| set.count_ones()).sum(); if !self.is_sound() && out.len() < 3 * bits as usize { return Err(Refusal::Slice); }'

# The calendar.
has='self.first as u32 <= day && day <= self.last as u32'
try last-day-left-out src/calendar.rs "$has" 'self.first as u32 <= day && day < self.last as u32'
try first-day-left-out src/calendar.rs "$has" '(self.first as u32) < day && day <= self.last as u32'
working='const WORKING_DAYS: usize = 5;'
try saturday-counted src/calendar.rs "$working" 'const WORKING_DAYS: usize = 6;'
try friday-left-out src/calendar.rs "$working" 'const WORKING_DAYS: usize = 4;'
try monday-left-out src/calendar.rs \
    'self.0.iter().any(|day| day.is_open())' 'self.0.iter().skip(1).any(|day| day.is_open())'
try open-all-week src/calendar.rs \
    'self.0.iter().any(|day| day.is_open())' 'self.0.iter().all(|day| day.is_open())'
try a-closed-day-shuts-the-week src/calendar.rs \
    'self.0.iter().any(|day| day.is_open())' \
    'self.0.iter().any(|day| day.is_open()) && !self.0.iter().any(|day| day.closed)'
try closed-ignored src/calendar.rs 'self.in_term && !self.closed' 'self.in_term'
try open-unless-closed src/calendar.rs 'self.in_term && !self.closed' '!self.closed'
try later-term-opens src/calendar.rs \
    'day.in_term |= has & (entry.kind == Kind::Term);' \
    'day.in_term |= has & (entry.kind == Kind::Term); day.closed &= !(has & (entry.kind == Kind::Term));'
try closed-only-after-its-term src/calendar.rs \
    'day.closed |= has & (entry.kind == Kind::Closed);' 'day.closed |= has & day.in_term & (entry.kind == Kind::Closed);'
try closed-shuts-every-site src/calendar.rs \
    'sites[entry.site as usize - 1].note(entry, week);' \
    'match entry.kind { Kind::Term => sites[entry.site as usize - 1].note(entry, week), Kind::Closed => sites.iter_mut().for_each(|site| site.note(entry, week)) }'
try days-high-byte-first src/calendar.rs \
    'let (first, last) = (u16::from_le_bytes([f0, f1]), u16::from_le_bytes([l0, l1]));' \
    'let (first, last) = (u16::from_be_bytes([f0, f1]), u16::from_be_bytes([l0, l1]));'
try day-of-16-bits src/calendar.rs \
    'let has = entry.has(7 * week as u32 + i as u32);' \
    'let has = entry.has(7u16.wrapping_mul(week).wrapping_add(i as u16) as u32);'
try numbering-falls src/calendar.rs 'for site in 1..=SITES {' 'for site in (1..=SITES).rev() {'
try processes-by-process src/calendar.rs \
    'self.process_of[site - 1] = self.n;' 'self.process_of[self.n as usize - 1] = self.n;'
try site-as-process src/calendar.rs 'self.process_of[site - 1] = self.n;' 'self.process_of[site - 1] = site as u8;'
read='let entry = Entry::read(bytes).map_err(|_| Refusal::Calendar)?;'
try fourteen-before-thirteen src/calendar.rs \
    'pub fn week(calendar: &[u8], week: u16) -> Result<Week, Refusal> {' \
    'pub fn week(calendar: &[u8], week: u16) -> Result<Week, Refusal> { let good: Vec<u8> = calendar.chunks(RECORD).filter(|x| Entry::read(x).is_ok()).flatten().copied().collect(); if good.len() < calendar.len() { self::week(&good, week)?; }'
try only-the-weeks-records-checked src/calendar.rs "$read" \
    'let day = |i: usize| bytes.get(i).map_or(0, |&low| low as u32) + 256 * bytes.get(i + 1).map_or(0, |&high| high as u32); if day(2) > 7 * week as u32 + 6 || day(4) < 7 * week as u32 { continue; } let entry = Entry::read(bytes).map_err(|_| Refusal::Calendar)?;'
try faulty-records-passed-over src/calendar.rs "$read" 'let Ok(entry) = Entry::read(bytes) else { continue };'
try checked-until-all-take-part src/calendar.rs "$read" \
    'if sites.iter().all(|site| site.takes_part()) { break; } let entry = Entry::read(bytes).map_err(|_| Refusal::Calendar)?;'
try partial-record-passed-over src/calendar.rs \
    'for bytes in calendar.chunks(RECORD) {' 'for bytes in calendar.chunks_exact(RECORD) {'
try last-bytes-not-looked-at src/calendar.rs 'if z0 != 0 || z1 != 0 {' 'if false && z0 != z1 {'
try one-last-byte-looked-at src/calendar.rs 'if z0 != 0 || z1 != 0 {' 'let _ = z1; if z0 != 0 {'
try last-bytes-that-cancel src/calendar.rs 'if z0 != 0 || z1 != 0 {' 'if z0 != z1 {'
try first-equal-to-last-refused src/calendar.rs 'if first > last {' 'if first >= last {'
try first-after-last-accepted src/calendar.rs 'if first > last {' 'if false {'
try site-17-accepted src/calendar.rs \
    'if site < 1 || site > SITES as u8 {' 'let site = if site == 17 { 16 } else { site }; if site < 1 || site > SITES as u8 {'
try another-kind-is-closed src/calendar.rs '_ => return Err(Fault::Kind),' '_ => Kind::Closed,'
try no-site-accepted src/calendar.rs 'if bench.n == 0 {' 'if false {'

# Diet portions.
equal='let equal = |i| self.value(i) == other.value(i);'
try diet-not-compared src/layout.rs "$equal" 'let equal = |i| self.value(i).portions == other.value(i).portions;'
try portions-not-compared src/layout.rs "$equal" 'let equal = |i| self.value(i).diet == other.value(i).diet;'
compare='settled = settled && received.same(estimate);'
try diet-not-compared-in-the-deciding-test src/step.rs "$compare" \
    'settled = settled && received.present == estimate.present && members(received.present).all(|i| received.value(i).portions == estimate.value(i).portions);'
read='let value = Value::from_bytes([v0, v1, v2, v3]);'
try parts-swapped-in-reading src/record.rs "$read" 'let value = Value::from_bytes([v2, v3, v0, v1]);'
try value-high-bytes-first src/record.rs "$read" 'let value = Value::from_bytes([v1, v0, v3, v2]);'
try parts-swapped-in-the-entry src/layout.rs \
    'self.values[i] = value.word();' 'self.values[i] = Value::new(value.diet, value.portions).word();'
try diet-lost-when-filling src/layout.rs \
    'self.values[i] = other.values[i];' 'self.values[i] = Value::new(other.value(i).portions, 0).word();'
try diet-lost-in-global-data src/read.rs \
    '*word = p.estimate.entry(i).map_or(0, Value::word);' '*word = p.estimate.entry(i).map_or(0, |value| value.portions as u32);'
try parts-swapped-in-printing src/value.rs \
    'write!(f, "{}/{}", self.portions, self.diet)' 'write!(f, "{}/{}", self.diet, self.portions)'
try diet-not-printed src/value.rs \
    'write!(f, "{}/{}", self.portions, self.diet)' 'write!(f, "{}", self.portions)'
try text-loses-the-diet src/text.rs \
    '(1, 0, 0, Value { portions, diet }) => Some(format!("start {a} {portions} {diet}")),' \
    '(1, 0, 0, Value { portions, .. }) => Some(format!("start {a} {portions}")),'

# Refusal 15 of a start.
try fifteen-not-in-a-start src/record.rs 'value.check()?;' ''
try fifteen-where-equal src/value.rs 'if self.diet > self.portions {' 'if self.diet >= self.portions {'
try fifteen-from-two-more-on src/value.rs 'if self.diet > self.portions {' 'if self.diet > self.portions.saturating_add(1) {'
try fifteen-before-5 src/record.rs \
    'self.unused(b == 0 && r == 0)?;' 'value.check()?; self.unused(b == 0 && r == 0)?;'
try fifteen-before-5-of-a src/record.rs 'let a = index(self.a, n)?;' 'value.check()?; let a = index(self.a, n)?;'
try fifteen-of-every-kind src/record.rs \
    'let Record { kind, b, r, value, .. } = self;' 'let Record { kind, b, r, value, .. } = self; value.check()?;'
event='let event = Record::read(record)?.event(self.n, self.t)?;'
try fifteen-after-6 src/step.rs "$event" \
    'let event = match Record::read(record)?.event(self.n, self.t) { Err(Refusal::Diet) if self.has_crashed(record[1] as usize - 1) => return Err(Refusal::Crashed), event => event? };'
try fifteen-after-7 src/step.rs "$event" \
    'let event = match Record::read(record)?.event(self.n, self.t) { Err(Refusal::Diet) if !self.has_crashed(record[1] as usize - 1) && self.processes[record[1] as usize - 1].round != 0 => return Err(Refusal::NotDue), event => event? };'
try fifteen-as-damage src/layout.rs \
    'used & !self.everyone() == 0 && self.processes.iter().all(|p| p.round <= self.t + 1)' \
    'used & !self.everyone() == 0 && self.processes.iter().all(|p| p.round <= self.t + 1 && (0..Bench::MAX).all(|i| p.estimate.entry(i).is_none_or(|value| value.check().is_ok())))'

# Refusal 15 of the aggregates, and what they read.
diet='members(present).try_for_each(|i| Value::from_word(entries[i]).check())'
try fifteen-under-absent src/aggregates.rs "$diet" 'entries.iter().try_for_each(|&entry| { let _ = present; Value::from_word(entry).check() })'
try fifteen-of-the-first-entry-alone src/aggregates.rs "$diet" \
    'members(present).take(1).try_for_each(|i| Value::from_word(entries[i]).check())'
total='pub fn total(n: u8, entries: &[u32], present: u16, standing: &[u32]) -> Result<u64, Refusal> {'
go='pub fn go(n: u8, entries: &[u32], present: u16) -> Result<bool, Refusal> {'
lead='pub fn lead(n: u8, entries: &[u32], present: u16) -> Result<(u8, u16), Refusal> {'
change='pub fn change(n: u8, entries: &[u32], present: u16, number: u8, standing: u32) -> Result<i64, Refusal> {'
unchecked='fn check_diet(_: &[u32], _: u16) -> Result<(), Refusal> { Ok(()) }'
try total-without-15 src/aggregates.rs "$total" "$total $unchecked"
try go-without-15 src/aggregates.rs "$go" "$go $unchecked"
try lead-without-15 src/aggregates.rs "$lead" "$lead $unchecked"
try change-without-15 src/aggregates.rs "$change" "$change $unchecked"
early='if check_n(n).is_ok() && present & !all(n) == 0 { members(present).filter(|&i| i < entries.len()).try_for_each(|i| Value::from_word(entries[i]).check())?; }'
try fifteen-before-10-in-total src/aggregates.rs \
    'if standing.len() != n as usize {' 'check_diet(entries, present)?; if standing.len() != n as usize {'
try fifteen-before-10-of-the-entries-in-total src/aggregates.rs "$total" "$total $early"
try fifteen-before-10-in-go src/aggregates.rs "$go" "$go $early"
try fifteen-before-10-in-lead src/aggregates.rs "$lead" "$lead $early"
try fifteen-before-10-in-change src/aggregates.rs "$change" \
    "$change if (1..=n).contains(&number) { $early }"
try fifteen-before-5-in-change src/aggregates.rs 'let i = index(number, n)?;' \
    'if check(n, entries, present).is_ok() { check_diet(entries, present)?; } let i = index(number, n)?;'
try fifteen-after-12-in-change src/aggregates.rs "$change" \
    "$change if check(n, entries, present).is_ok() && (1..=n).contains(&number) && present & bit(number as usize - 1) == 0 { return Err(Refusal::Absent); }"
try total-reads-the-word src/aggregates.rs "$value" \
    'let value = |i: usize| if present & bit(i) != 0 { entries[i] } else { standing[i] };'
try go-reads-the-diet src/aggregates.rs \
    'Ok(present == all(n) && entries.iter().all(|&entry| portions(entry) >= 1))' \
    'Ok(present == all(n) && entries.iter().all(|&entry| Value::from_word(entry).diet >= 1))'
try lead-by-the-word src/aggregates.rs "$rank" '(entry, i)'
try lead-gives-the-diet src/aggregates.rs \
    'Ok((i as u8 + 1, portions(entries[i])))' 'Ok((i as u8 + 1, Value::from_word(entries[i]).diet))'
try change-reads-the-word src/aggregates.rs \
    'Ok(portions(entries[i]) as i64 - standing as i64)' 'Ok(entries[i] as i64 - standing as i64)'
try standing-of-16-bits src/aggregates.rs "$value" \
    'let value = |i: usize| if present & bit(i) != 0 { portions(entries[i]) as u32 } else { standing[i] & 0xffff };'

# The close in one pass.
fill='estimate.fill(received);'
each='for m in members(next & !bit(a)) {'
try compared-after-filling src/step.rs "$compare" "$fill $compare"
try compared-with-the-first-received src/step.rs "$compare" \
    'settled = settled && received.same(&self.sent[row((next & !bit(a)).trailing_zeros() as usize, round)]);'
try marks-alone-compared src/step.rs "$compare" 'settled = settled && received.present == estimate.present;'
try common-entries-alone-compared src/step.rs "$compare" \
    'settled = settled && members(received.present & estimate.present).all(|i| received.value(i) == estimate.value(i));'
try words-under-absent-compared src/step.rs "$compare" 'settled = settled && *received == *estimate;'
try equal-words-whatever-the-marks src/layout.rs \
    'self.present == other.present && (self.values == other.values || members(self.present).all(equal))' \
    'self.values == other.values || self.present == other.present && members(self.present).all(equal)'
try first-not-compared src/step.rs "$compare" \
    'settled = settled && (m == (next & !bit(a)).trailing_zeros() as usize || received.same(estimate));'
try last-not-compared src/step.rs "$compare" \
    'settled = settled && (m + 1 == 16 - (next & !bit(a)).leading_zeros() as usize || received.same(estimate));'
try last-alone-compared src/step.rs "$compare" 'settled = previous == next && received.same(estimate);'
try compared-only-where-nothing-is-filled src/step.rs "$compare" \
    'settled = settled && (received.present & !estimate.present != 0 || received.same(estimate));'
try last-does-not-fill src/step.rs "$fill" \
    'if m + 1 != 16 - (next & !bit(a)).leading_zeros() as usize { estimate.fill(received); }'
try filling-ends-where-one-differs src/step.rs "$compare" "$compare if !settled { $fill break; }"
try filled-over-present src/layout.rs \
    'for i in members(other.present & !self.present) {' 'for i in members(other.present) {'
try highest-member-first src/step.rs "$each" 'for m in members(next & !bit(a)).collect::<Vec<usize>>().into_iter().rev() {'
try own-row-read-too src/step.rs "$each" 'for m in members(next) {'
try rows-of-all-read src/step.rs "$each" 'for m in members(self.everyone() & !bit(a)) {'
try set-test-with-the-current-set src/step.rs \
    'let mut settled = previous == next;' 'let mut settled = previous == self.processes[a].current;'

# Carrying a bench from before diet portions over.
carry='pub fn carry(&mut self) -> Result<&mut Bench, Refusal> {'
counts='self.data().try_for_each(check_counts)?;'
large='if members(data.present).any(|i| data.values[i] > MOST) {'
estimates='let estimates = self.0.processes.iter().map(|p| &p.estimate);'
rows='estimates.chain(&self.0.sent)'
# of NAME CONDITION: only estimates of such processes, i counted from 0, are looked at.
of() {
    try "$1" src/old.rs "$estimates" \
        "let estimates = self.0.processes.iter().enumerate().filter(|&(i, p)| { let _ = (i, p); $2 }).map(|(_, p)| &p.estimate);"
}
# sent NAME CONDITION: only rows of such processes a, counted from 0, and rounds r, from 1, are looked at.
sent() {
    try "$1" src/old.rs "$rows" \
        "estimates.chain(self.0.sent.iter().enumerate().filter(|(i, _)| { let (a, r) = (i / 16, i % 16 + 1); let _ = (a, r); $2 }).map(|(_, data)| data))"
}
try sixteen-before-2 src/old.rs "$carry" "$carry $counts"
try rows-unseen src/old.rs "$rows" 'estimates'
try estimates-unseen src/old.rs "$rows" '{ let _ = estimates; self.0.sent.iter() }'
try word-under-absent-counted src/old.rs "$large" 'if data.values.iter().any(|&word| word > MOST) {'
try sixteen-from-65537-on src/old.rs "$large" 'if members(data.present).any(|i| data.values[i] > MOST + 1) {'
try sixteen-from-65535-on src/old.rs "$large" 'if members(data.present).any(|i| data.values[i] >= MOST) {'
try sixteen-for-bad-values-alone src/old.rs "$large" \
    'if members(data.present).any(|i| data.values[i] > MOST && data.value(i).check().is_err()) {'
try sixteen-of-the-first-entry-alone src/old.rs "$large" \
    'if members(data.present).take(1).any(|i| data.values[i] > MOST) {'
of estimates-of-the-running-alone '!self.0.has_crashed(i)'
of estimates-of-the-started-alone 'p.round != 0'
of estimates-of-the-undecided-alone '!p.has_decided()'
of estimates-of-n-alone 'i < self.0.n as usize'
sent rows-of-opened-rounds-alone 'r <= self.0.processes[a].round as usize'
sent rows-of-rounds-of-the-bench-alone 'r <= self.0.t as usize + 1'
sent rows-of-the-running-alone '!self.0.has_crashed(a)'
sent rows-of-n-alone 'a < self.0.n as usize'
try changed-on-refusal src/old.rs "$counts" \
    'self.data_mut().try_for_each(|data| { let found = check_counts(data); to_portions(data); found })?;'
portions='data.set(i, Value::new(data.values[i] as u16, 0));'
try carried-as-diet-too src/old.rs "$portions" 'data.set(i, Value::new(data.values[i] as u16, data.values[i] as u16));'
try carried-as-diet src/old.rs "$portions" 'data.set(i, Value::new(0, data.values[i] as u16));'
try cleared-under-absent src/old.rs \
    'for i in members(data.present) {' 'members(!data.present).for_each(|i| data.values[i] = 0); for i in members(data.present) {'
try rows-not-carried src/old.rs \
    'self.data_mut().for_each(to_portions);' 'self.data_mut().for_each(to_portions); self.0.sent = [GlobalData::ABSENT; 256];'
try transit-not-carried src/old.rs \
    'self.data_mut().for_each(to_portions);' 'self.data_mut().for_each(to_portions); self.0.in_transit = [0; 272];'
try crashes-not-carried src/old.rs \
    'self.data_mut().for_each(to_portions);' 'self.data_mut().for_each(to_portions); self.0.crashed = 0;'
diet='Err(Refusal::Diet) => start(bench, Record::read(record)?),'
try fifteen-before-diet-portions src/old.rs "$diet" 'Err(Refusal::Diet) => { let _ = start; let _ = Record::read; Err(Refusal::Diet) }'
try count-cut-to-16-bits src/old.rs \
    'bench.start(a, record.value)?;' 'bench.start(a, Value::new(record.value.portions, 0))?;'
try six-unchecked-before-diet-portions src/old.rs 'if bench.has_crashed(a) {' 'if false {'

# Ties of the lead.
best='let best = members(present).max_by_key(|&i| rank(entries[i], i));'
# loop NAME MORE EQUAL: the lead by a loop; `most` and `kept` are the portions and diet portions that the next has to
# pass. MORE and EQUAL are what it does with a value of more portions, and with one as many that passes in diet portions.
loop() {
    try "$1" src/aggregates.rs "$best" \
        "let (mut best, mut most, mut kept) = (None, 0, 0); for i in members(present) { let value = Value::from_word(entries[i]); if best.is_none() { (best, most, kept) = (Some(i), value.portions, value.diet); } else if value.portions > most { (best, most) = (Some(i), value.portions); $2 } else if value.portions == most && value.diet >= kept { best = Some(i); $3 } }"
}
try lead-ties-to-lowest src/aggregates.rs "$rank" '(portions, std::cmp::Reverse(i))'
try lead-to-less-diet src/aggregates.rs "$rank" '(portions, std::cmp::Reverse(diet), i)'
try lead-equal-in-both-to-lowest src/aggregates.rs "$rank" '(portions, diet, std::cmp::Reverse(i))'
try lead-with-the-diet-added src/aggregates.rs "$rank" '(portions as u32 + diet as u32, diet, i)'
try lead-without-the-diet src/aggregates.rs "$rank" '(portions - diet, diet, i)'
try lead-by-the-bytes src/aggregates.rs "$rank" '(entry.to_le_bytes(), i)'
try lead-portions-signed src/aggregates.rs "$rank" '(portions as i16, diet, i)'
try lead-diet-signed src/aggregates.rs "$rank" '(portions, diet as i16, i)'
try lead-diet-of-8-bits src/aggregates.rs "$rank" '(portions, diet as u8, i)'
try lead-number-as-text src/aggregates.rs "$rank" '(portions, diet, (i + 1).to_string())'
try lead-absent-in-the-contest src/aggregates.rs "$best" \
    'let best = (0..n as usize).filter(|_| present != 0).max_by_key(|&i| rank(entries[i], i));'
try lead-absent-in-the-tie src/aggregates.rs "$best" \
    'let most = members(present).map(|i| portions(entries[i])).max(); let best = (0..n as usize).filter(|&i| Some(portions(entries[i])) == most).max_by_key(|&i| rank(entries[i], i));'
try lead-zero-as-absent src/aggregates.rs "$best" \
    'let best = members(present).filter(|&i| entries[i] != 0).max_by_key(|&i| rank(entries[i], i));'
loop lead-passed-by-its-diet '' 'kept = value.diet;'
loop lead-diet-of-the-first-in-the-tie 'kept = value.diet;' ''

# a name that no edit has
for name in "$@"; do
    case "$known" in *" $name "*) ;; *) echo "mutations: there is no edit $name" >&2; exit 1 ;; esac
done

//! Compares marks. gimli has none: a return is a new walk of gimli's, or of the
//! model's at size 3, brought there by the calls that led to the mark. And the
//! calls that followed a setting are made again after a return, where they must
//! answer as they did the first time. Walk and marks are held word for word to what
//! they must be after every setting and every return, refused or not.

use generator::{ListCase, Random};
use oracle::oracle_api::*;

use crate::added::{Added, Marks, Words, no};
use crate::differ::{Met, Noted, entry_of, kind_and_version};
use crate::differ::{list_of, size_not_read, walk_by_hand};
use crate::measure::Walk;

#[derive(Debug, Clone, Copy)]
enum Call {
    Next,
    NextInProfile,
    NextRaw,
    ConvertRaw(Raw),
}

#[derive(Debug, Clone, Copy)]
enum Step {
    Read(Call),
    Set(u64),
    /// And whether the calls that followed the setting are made again.
    Return(u64, bool),
}

#[derive(Debug, Clone, Copy, PartialEq)]
enum Told {
    Next(Answer<Yielded>),
    NextRaw(Answer<Noted>),
    ConvertRaw(Converted),
}

/// A call's answer, and the walk then.
type Left = (Told, State);

fn told<T>((answer, after): (T, State), of: impl FnOnce(T) -> Told) -> Left {
    (of(answer), after)
}

impl Call {
    fn of_port(self, port: &impl Added, list: &List, walk: State) -> Left {
        match self {
            Call::Next => told(port.next(list, walk), Told::Next),
            Call::NextInProfile => told(port.next_in_profile(list, walk), Told::Next),
            Call::NextRaw => told(port.next_raw(list, walk), Told::NextRaw),
            Call::ConvertRaw(entry) => told(port.convert_raw(list, walk, entry), Told::ConvertRaw),
        }
    }

    fn of(self, walk: &mut Walk) -> Told {
        match self {
            Call::Next => Told::Next(walk.next()),
            Call::NextInProfile => Told::Next(walk.next_in_profile()),
            Call::NextRaw => Told::NextRaw(walk.next_raw()),
            Call::ConvertRaw(entry) => Told::ConvertRaw(walk.convert_raw(entry)),
        }
    }
}

/// How a walk was brought where it stands: from its opening, or as it was made by
/// hand, by these calls. After a return they are those of the mark.
#[derive(Clone)]
struct Led {
    from: State,
    calls: Vec<Call>,
}

impl Led {
    fn anew<'a>(&self, list: &List<'a>) -> Walk<'a> {
        let mut walk = Walk::by_hand(list, self.from);
        for call in &self.calls {
            call.of(&mut walk);
        }
        walk
    }
}

/// What is known of a mark that is set: how its walk was brought there, and
/// which call followed, by the part of `Marked::reads` and the place in it; none
/// where the mark was made by hand.
struct Kept {
    led: Led,
    then: Option<(usize, usize)>,
}

fn words(State { place, base_address, entries }: State, split: u64) -> Words {
    [place, base_address, entries, split]
}

fn state([place, base_address, entries, _]: Words) -> State {
    State { place, base_address, entries }
}

fn mark(is_set: u64, [place, base_address, entries, split]: Words) -> [u64; 5] {
    [is_set, place, base_address, entries, split]
}

/// A walk with marks. `words` and `marks` are what the port left; `walk` with
/// `split`, and `stored`, what they are held to.
struct Marked<'a, P> {
    port: &'a P,
    list: &'a List<'a>,
    words: Words,
    marks: Marks,
    walk: Walk<'a>,
    split: u64,
    stored: Marks,
    led: Led,
    kept: [Option<Kept>; 8],
    /// The calls that read, with what they left, in parts between returns.
    reads: Vec<Vec<(Call, Left)>>,
    /// The raw entry that was read last.
    entry: Option<Raw>,
}

impl<'a, P: Added> Marked<'a, P> {
    fn new(port: &'a P, list: &'a List<'a>, words: Words, marks: Marks) -> Marked<'a, P> {
        let by_hand = |words| Led { from: state(words), calls: Vec::new() };
        let kept = marks.map(|[is_set, words @ ..]| {
            (is_set != 0).then(|| Kept { led: by_hand(words), then: None })
        });
        let led = by_hand(words);
        let (walk, split, reads) = (led.anew(list), words[3], vec![Vec::new()]);
        let (stored, entry) = (marks, None);
        Marked { port, list, words, marks, walk, split, stored, led, kept, reads, entry }
    }

    fn step(&mut self, step: Step, met: &mut Met) -> Result<(), String> {
        match step {
            Step::Read(call) => self.read(call, met).map(|_| ()),
            Step::Set(number) => self.set(number, met),
            Step::Return(number, again) => {
                let done = self.return_to(number, met)?;
                if done && again { self.again(number, met) } else { Ok(()) }
            }
        }
    }

    fn read(&mut self, call: Call, met: &mut Met) -> Result<Left, String> {
        self.led.calls.push(call);
        let due = (call.of(&mut self.walk), self.walk.state());
        let left = call.of_port(self.port, self.list, state(self.words));
        met.same("read, with marks", &due, &left)?;
        self.words = words(left.1, self.words[3]);
        self.reads.last_mut().expect("a part").push((call, left));
        if let Told::NextRaw(Answer::Entry(noted)) = left.0 {
            self.entry = Some(noted.entry);
        }
        Ok(left)
    }

    fn set(&mut self, number: u64, met: &mut Met) -> Result<(), String> {
        let due = match self.kept.get_mut(number as usize) {
            Some(kept) => {
                met.met(if kept.is_none() { "mark set" } else { "mark set again" }.into());
                let part = self.reads.len() - 1;
                let then = Some((part, self.reads[part].len()));
                *kept = Some(Kept { led: self.led.clone(), then });
                self.stored[number as usize] = mark(1, words(self.walk.state(), self.split));
                Ok(())
            }
            None => {
                met.met("mark refused 13, above 7".into());
                no(13)
            }
        };
        let got = self.port.set_mark(number, &mut self.words, &mut self.marks);
        self.held("set_mark", due, got, met)
    }

    /// Whether it is done.
    fn return_to(&mut self, number: u64, met: &mut Met) -> Result<bool, String> {
        let due = match self.kept.get(number as usize) {
            Some(Some(kept)) => {
                met.met("return".into());
                self.led = kept.led.clone();
                self.walk = self.led.anew(self.list);
                self.split = self.stored[number as usize][4];
                self.reads.push(Vec::new());
                Ok(())
            }
            Some(None) => {
                met.met("return refused 13, never set".into());
                no(13)
            }
            None => {
                met.met("return refused 13, above 7".into());
                no(13)
            }
        };
        let got = self.port.return_to(number, &mut self.words, &mut self.marks);
        self.held("return_to", due, got, met)?;
        Ok(due.is_ok())
    }

    /// A setting or a return: its answer, the walk's words, and all marks.
    fn held(
        &mut self,
        call: &str,
        due: Result<(), Refusal>,
        got: Result<(), Refusal>,
        met: &mut Met,
    ) -> Result<(), String> {
        let due = (due, words(self.walk.state(), self.split), self.stored);
        met.same(call, &due, &(got, self.words, self.marks))
    }

    /// After a return: the calls that followed the setting, up to the first
    /// return, once more.
    fn again(&mut self, number: u64, met: &mut Met) -> Result<(), String> {
        let kept = self.kept[number as usize].as_ref().expect("a mark that is set");
        let Some((part, from)) = kept.then else { return Ok(()) };
        let then = self.reads[part][from..].to_vec();
        if !then.is_empty() {
            met.met("return, and the same calls again".into());
        }
        for (call, first) in then {
            met.met("the same call again".into());
            let again = self.read(call, met)?;
            if again != first {
                return Err(format!("{call:x?}, after a return: {again:x?}, before {first:x?}"));
            }
        }
        Ok(())
    }
}

/// Up to 40 steps from a walk on, with marks of which none is set, or made by hand.
/// The case is the list's, for entries made by hand. In the profile, half of the
/// calls of `next` are the profile's.
fn steps(
    port: &impl Added,
    case: &ListCase,
    list: &List,
    from: State,
    in_profile: bool,
    r: &mut Random,
    met: &mut Met,
) -> Result<(), String> {
    let split = |r: &mut Random| if r.one_in(1, 2) { r.below(2) } else { r.next() };
    let entry = |r: &mut Random| entry_of(&generator::raw_case(r, case), list);
    let mut marks = Marks::default();
    if r.one_in(1, 4) {
        met.met("marks by hand".into());
        marks = marks.map(|_| {
            let is_set = r.pick(&[0, 0, 1, 2, 1 << 63, u64::MAX]);
            mark(is_set, words(walk_by_hand(r, list), split(r)))
        });
    }
    let mut marked = Marked::new(port, list, words(from, split(r)), marks);
    // Few marks, or all; the first among them, or the last.
    let (few, last) = (r.pick(&[1, 2, 8, 8]), r.pick(&[0, 7]));
    let mut made = Vec::new();
    for _ in 0..1 + r.below(40) {
        let mut number = last ^ r.below(few);
        if r.one_in(1, 8) {
            let above = number | 8 << r.below(61);
            number = r.pick(&[8, u64::MAX, above]);
        }
        let step = match r.below(12) {
            0..=2 if in_profile && r.one_in(1, 2) => Step::Read(Call::NextInProfile),
            0..=2 => Step::Read(Call::Next),
            3 | 4 => Step::Read(Call::NextRaw),
            5 => Step::Read(Call::ConvertRaw(marked.entry.unwrap_or_else(|| entry(r)))),
            6 => Step::Read(Call::ConvertRaw(entry(r))),
            7 | 8 => Step::Set(number),
            _ => Step::Return(number, r.one_in(1, 2)),
        };
        made.push(step);
        marked.step(step, met).map_err(|error| format!("{error}\nfrom {from:x?} by {made:x?}"))?;
    }
    Ok(())
}

/// A seed's other numbers.
const MARKS: u64 = 0x6d61726b73;

/// Steps from a list's opening, or from a walk made by hand. Now and then the list
/// has an address size that isn't read, too: marks are set and returned to, and 6 is
/// for the calls that read.
pub fn compare(port: &impl Added, case: &ListCase, seed: u64, met: &mut Met) -> Result<(), String> {
    some_steps(port, case, seed, false, met)
}

/// The same, with profile calls among them.
pub fn in_profile(
    port: &impl Added,
    case: &ListCase,
    seed: u64,
    met: &mut Met,
) -> Result<(), String> {
    some_steps(port, case, seed, true, met)
}

fn some_steps(
    port: &impl Added,
    case: &ListCase,
    seed: u64,
    in_profile: bool,
    met: &mut Met,
) -> Result<(), String> {
    let list = &list_of(case);
    let r = &mut Random::new(seed ^ MARKS);
    if r.one_in(1, 64) {
        let list = &List { address_size: size_not_read(r), ..*list };
        met.met("walk with marks, other size".into());
        let from = walk_by_hand(r, list);
        met.leaving_out(|met| steps(port, case, list, from, in_profile, r, met))?;
    }
    met.measured_at(list.address_size, |met| {
        met.met(format!("{} with marks", kind_and_version(list)));
        let opened = Walk::open(list).map(|mut walk| walk.state());
        met.same("open", &opened, &port.open(list))?;
        let from = match opened {
            Ok(opened) if r.one_in(3, 4) => {
                met.met("opened walk with marks".into());
                opened
            }
            _ => {
                met.met("walk by hand with marks".into());
                walk_by_hand(r, list)
            }
        };
        steps(port, case, list, from, in_profile, r, met)
    })
}

//! Makes what shows a difference small before it is printed.

use crate::call::{Buffers, Call, Subject};
use crate::sides::{Difference, Sides};
use model::Step;
use model::layout::{Head, STATE_WORDS, is_capacity};
use std::fmt::Write;

/// The shortest part of a list found that still fails, by dropping ever smaller pieces.
pub fn shorten<T: Clone>(list: &[T], fails: impl Fn(&[T]) -> bool) -> Vec<T> {
    let mut list = list.to_vec();
    let mut size = list.len().div_ceil(2);
    while size > 0 {
        let mut dropped = false;
        let mut end = list.len();
        while end > 0 {
            let start = end.saturating_sub(size);
            let rest = [&list[..start], &list[end..]].concat();
            if fails(&rest) {
                list = rest;
                dropped = true;
            }
            end = start;
        }
        if size > 1 || !dropped {
            size /= 2;
        }
    }
    list
}

/// The call with the shortest part of its scores found that still fails.
pub fn with_fewer_scores(mut call: Call, fails: impl Fn(Call) -> bool) -> Call {
    while let Call::Step(_, Step::WriteScores(scores)) | Call::StepWith(_, Step::WriteScores(scores)) = call {
        let (first, second) = scores.split_at(scores.len() / 2);
        let ends = [scores.get(1..), scores.get(..scores.len().saturating_sub(1))];
        let parts = [first, second].into_iter().chain(ends.into_iter().flatten());
        let shorter = parts.filter(|part| part.len() < scores.len());
        match shorter.map(|part| with_scores(call, part)).find(|&call| fails(call)) {
            Some(shorter) => call = shorter,
            None => break,
        }
    }
    call
}

fn with_scores(call: Call, scores: &'static [u16]) -> Call {
    match call {
        Call::Step(client, _) => Call::Step(client, Step::WriteScores(scores)),
        Call::StepWith(client, _) => Call::StepWith(client, Step::WriteScores(scores)),
        call => call,
    }
}

/// Whether a call takes the plan that is lent.
pub fn takes_plan(call: Call) -> bool {
    matches!(call, Call::RunPlan(_) | Call::Forecast(_))
}

/// What a call on these buffers shows, if the two sides part.
pub fn difference(subject: Subject, call: Call, buffers: &Buffers) -> Option<Box<Difference>> {
    let mut sides = Sides::new(subject);
    sides.set(buffers);
    sides.call(call).err()
}

/// Smaller buffers on which the call still fails: a shorter plan, fewer marks, entries, places, ledgers and clients, then more zero words.
pub fn simplify(subject: Subject, call: Call, buffers: &Buffers) -> Buffers {
    let mut best = buffers.clone();
    let fails = |candidate: &Buffers| difference(subject, call, candidate).is_some();
    if takes_plan(call) {
        best.plan = shorten(&buffers.plan, |plan| fails(&Buffers { plan: plan.to_vec(), ..buffers.clone() }));
    }
    while let Some(smaller) = cuts(&best).into_iter().find(|cut| *cut != best && fails(cut)) {
        best = smaller;
    }
    for size in [512, 64, 8, 1] {
        zero_words(&mut best, size, |buffers| &mut buffers.entries, fails);
        zero_words(&mut best, size, |buffers| &mut buffers.state, fails);
        zero_words(&mut best, size, |buffers| &mut buffers.marks, fails);
        zero_words(&mut best, size, |buffers| &mut buffers.rights, fails);
    }
    best
}

/// The same log with less in it.
fn cuts(buffers: &Buffers) -> Vec<Buffers> {
    if buffers.state.len() != STATE_WORDS || !is_capacity(buffers.entries.len()) {
        return vec![];
    }
    let head = Head::load(buffers.state[0]).0;
    let with = |head: Head| {
        let mut cut = buffers.clone();
        cut.state[0] = head.word();
        cut.entries[(head.entry_count as usize).min(buffers.entries.len())..].fill(0);
        cut.state[(272 + head.list_length as usize).min(STATE_WORDS)..].fill(0);
        cut.state[(16 + head.next_ledger as usize).min(272)..272].fill(0);
        cut.state[(1 + head.client_count as usize).min(17)..17].fill(0);
        cut.rights.iter_mut().skip(head.client_count as usize).for_each(|word| *word = 0);
        cut
    };
    let smaller = |count: u64| [0, count / 2, count.saturating_sub(1)];
    let mut all = without_a_mark(buffers);
    all.extend(smaller(head.entry_count).map(|entry_count| with(Head { entry_count, ..head })));
    all.extend(smaller(head.list_length).map(|list_length| with(Head { list_length, ..head })));
    all.extend(smaller(head.next_ledger).map(|next_ledger| with(Head { next_ledger, ..head })));
    all.extend(smaller(head.client_count).map(|client_count| with(Head { client_count, ..head })));
    all
}

/// The same log with one mark less, wherever it is kept.
fn without_a_mark(buffers: &Buffers) -> Vec<Buffers> {
    let kept = buffers.marks.chunks_exact(2).take_while(|pair| pair[0] != 0).count();
    let without = |place: usize| {
        let mut cut = buffers.clone();
        cut.marks.drain(2 * place..2 * place + 2);
        cut.marks.resize(buffers.marks.len(), 0);
        cut
    };
    (0..kept).map(without).collect()
}

fn zero_words(
    best: &mut Buffers,
    size: usize,
    words: impl Fn(&mut Buffers) -> &mut Vec<u64>,
    fails: impl Fn(&Buffers) -> bool,
) {
    for start in (0..words(best).len()).step_by(size) {
        let mut candidate = best.clone();
        let end = words(best).len().min(start + size);
        words(&mut candidate)[start..end].fill(0);
        if candidate != *best && fails(&candidate) {
            *best = candidate;
        }
    }
}

/// The lengths of the buffers and the words that aren't zero.
pub fn describe(buffers: &Buffers) -> String {
    let mut text = String::new();
    let named = [
        ("state", &buffers.state),
        ("entries", &buffers.entries),
        ("marks", &buffers.marks),
        ("rights", &buffers.rights),
        ("plan", &buffers.plan),
    ];
    for (name, words) in named {
        let set: Vec<_> = words.iter().enumerate().filter(|(_, word)| **word != 0).collect();
        let _ = writeln!(text, "{name}: {} words, {} not zero", words.len(), set.len());
        for (index, word) in set.iter().take(40) {
            let _ = writeln!(text, "  {name} word {index}: {word:#018x}");
        }
        if set.len() > 40 {
            let _ = writeln!(text, "  and {} more", set.len() - 40);
        }
    }
    let _ = writeln!(text, "output: {} words", buffers.output.len());
    text
}

/// The report on a call that fails on these buffers, made small.
pub fn report(subject: Subject, call: Call, buffers: &Buffers) -> String {
    let call = with_fewer_scores(call, |call| difference(subject, call, buffers).is_some());
    let small = simplify(subject, call, buffers);
    let found = difference(subject, call, &small).or_else(|| difference(subject, call, buffers));
    let found = found.map_or_else(|| format!("{call}: it failed once and no longer does\n"), |d| d.to_string());
    format!("{found}The smallest buffers found that show it:\n{}", describe(&small))
}

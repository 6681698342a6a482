//! What a page shows, read from its elements and compared with what it must show.

use crate::chromium::{Chromium, Outcome};
use crate::moments::{Moment, Moments};

const SHOWN: &str = include_str!("shown.js");

/// Holds what is shown against the moment after so many steps.
pub fn compare(browser: &mut Chromium, moments: &Moments, at: usize, how: &str) -> Outcome<()> {
    let shown = browser.evaluate(SHOWN)?;
    let shown: Vec<&str> = shown.split('\u{1f}').collect();
    let steps = shown.get(11).ok_or("the page shows too little")?;
    let columns: Vec<usize> = steps.split(' ').filter_map(|step| step.parse().ok()).collect();
    if !columns.contains(&at) {
        return Err(format!("{how}, step {at}: the lanes show the steps {steps}"));
    }
    for (name, shown, expected) in parts(&shown, moments, at, &columns) {
        if shown != expected {
            return Err(format!("{how}, step {at}, {name}:\n    shown    {shown:?}\n    expected {expected:?}"));
        }
    }
    Ok(())
}

/// Each part by its name, as it is shown and as it must be.
fn parts<'a>(
    shown: &[&'a str],
    moments: &Moments,
    at: usize,
    columns: &[usize],
) -> Vec<(&'static str, &'a str, String)> {
    let (moment, last) = (&moments.all[at], moments.all.len() - 1);
    let place = format!("step {at} of {last}");
    // What a step that is taken says of itself is the trace's own text; the rest of it is compared below.
    let text = moment.sentence.clone().unwrap_or(shown[2].into());
    let when = when(shown[18], moments, at);
    let told: Vec<&str> = [&place, &moment.line, &moment.reply, &text, &when]
        .map(String::as_str)
        .into_iter()
        .filter(|part| !part.is_empty())
        .collect();
    let told = told.join(". ");
    let expected = [
        ("line", moment.line.clone()),
        ("reply", moment.reply.clone()),
        ("text", text),
        ("named leader", moment.named.to_string()),
        ("clients", moment.clients.join("\n")),
        ("chain", moment.chain.join("\n")),
        ("ledgers not listed", moment.unlisted.join("\n")),
        ("refused entry", moment.blocked.clone().unwrap_or_default()),
        ("slider", at.to_string()),
        ("place", place),
        ("current step of the list", if at > 0 { moments.number(at).to_string() } else { String::new() }),
        ("columns", columns.iter().map(usize::to_string).collect::<Vec<_>>().join(" ")),
        ("marks of the lanes", marks(moments, at, columns)),
        ("words of the lanes", words(moments, at, columns)),
        ("results", if at == last { moments.results.join("\n") } else { String::new() }),
        ("kind of the step", kind(moment).into()),
        ("spoken", told),
        ("visible", "seen".into()),
        ("time", when),
        ("heads of the lanes", heads(moments, columns)),
    ];
    expected.into_iter().zip(shown).map(|((name, expected), &shown)| (name, shown, expected)).collect()
}

/// The row and its time, which has to be one of these years, in UTC. The rest of it is the trace's own.
fn when(shown: &str, moments: &Moments, at: usize) -> String {
    if moments.rows.is_none() || at == 0 {
        return String::new();
    }
    let row = format!("row {}, ", moments.number(at));
    let time =
        shown.strip_prefix(&row).filter(|time| time.len() == 30 && time.starts_with("20") && time.ends_with(" UTC"));
    time.map_or(format!("{row}and its time"), |time| row.clone() + time)
}

/// The steps by their numbers.
fn heads(moments: &Moments, columns: &[usize]) -> String {
    let head = |&step: &usize| if step == 0 { "start".into() } else { moments.number(step).to_string() };
    columns.iter().map(head).collect::<Vec<_>>().join(" ")
}

fn kind(moment: &Moment) -> &'static str {
    match moment.reply.as_str() {
        "behind" => "behind",
        "bad line" => "bad",
        _ if moment.sentence.is_some() => "refused",
        _ => "",
    }
}

/// The marks of the steps that are in the columns, row by row.
fn marks(moments: &Moments, at: usize, columns: &[usize]) -> String {
    let clients = moments.all[0].clients.len() as u64;
    let all = (0..clients).flat_map(|client| columns.iter().map(move |&step| (client, step)));
    let marks = all.filter(|&(_, step)| step <= at).filter_map(|(client, step)| {
        let moment = &moments.all[step];
        let (_, mark) = moment.mark.as_ref().filter(|(of, _)| *of == client)?;
        // What is drawn as refused is also said to be.
        Some(match kind(moment) {
            "refused" => format!("{step} {client} refused {mark} refused"),
            "behind" => format!("{step} {client} {mark} behind"),
            _ => format!("{step} {client} {mark}"),
        })
    });
    marks.collect::<Vec<_>>().join("\n")
}

/// The words of the stages, each where it begins or at the first column.
fn words(moments: &Moments, at: usize, columns: &[usize]) -> String {
    let clients = moments.all[0].clients.len();
    let all = (0..clients).flat_map(|client| columns.iter().map(move |&step| (client, step)));
    let words = all.filter(|&(_, step)| step <= at).filter_map(|(client, step)| {
        let word = &moments.all[step].words[client];
        let begins = step == columns[0] || moments.all[step].clients[client] != moments.all[step - 1].clients[client];
        (begins && !word.is_empty()).then(|| format!("{step} {client} {word}"))
    });
    words.collect::<Vec<_>>().join("\n")
}

//! The page: all steps as a list, the parts that the script fills, and the picture for paper and for readers without scripts.

use crate::data::data;
use crate::escape::markup;
use crate::frames::{Frame, Frames, Outcome};
use crate::policy::source;
use crate::rows::Row;
use crate::svg;
use limits::DRAWN_LIMIT;
use session::NoSession;

const STYLE: &str = include_str!("page.css");
const SCRIPT: &str = include_str!("page.js");

/// How many steps a part of the list has.
const PART: usize = 200;

/// The page of a session with this name, which is shown, or of what is no session.
pub fn page(name: &str, frames: &Result<Frames, NoSession>) -> String {
    match frames {
        Ok(frames) => head(name, Some(SCRIPT)) + &session(name, frames),
        Err(reason) => head(name, None) + &no_session(name, *reason),
    }
}

fn head(name: &str, script: Option<&str>) -> String {
    let script = script.map_or("'none'".into(), source);
    let policy = format!("default-src 'none'; script-src {script}; style-src {} {}", source(STYLE), source(svg::STYLE));
    format!(
        "<!DOCTYPE html>\n<html lang=\"en\">\n<head>\n<meta charset=\"utf-8\">\n\
         <meta http-equiv=\"Content-Security-Policy\" content=\"{policy}; base-uri 'none'; form-action 'none'\">\n\
         <meta name=\"viewport\" content=\"width=device-width, initial-scale=1\">\n\
         <meta name=\"color-scheme\" content=\"light dark\">\n\
         <title>{}</title>\n<style>{STYLE}</style>\n</head>\n",
        markup(name)
    )
}

fn no_session(name: &str, reason: NoSession) -> String {
    format!(
        "<body>\n<main>\n<h1>{}</h1>\n<p class=\"no-session\"><b id=\"reply\">{reason}</b></p>\n<p>{}</p>\n</main>\n</body>\n</html>\n",
        markup(name),
        why(reason)
    )
}

/// What is wrong with an input that is no session.
pub fn why(reason: NoSession) -> &'static str {
    match reason {
        NoSession::TooLong => "The file has more than 16,384 bytes, so no step is taken.",
        NoSession::BadStart => "The first line is no client count of 1 to 16, so no step is taken.",
    }
}

/// A line of the list. Its number is its place, or that of its row.
fn item(place: usize, frame: &Frame) -> String {
    let class = Some(frame.outcome.class()).filter(|class| !class.is_empty());
    let class = class.map_or(String::new(), |class| format!(" class={class}"));
    let word = if frame.outcome == Outcome::Refused { "refused: " } else { "" };
    let text = if frame.text.is_empty() { String::new() } else { format!(" <span>{}</span>", markup(&frame.text)) };
    let (line, reply) = (markup(&frame.line), markup(&frame.reply));
    let number = frame.number(place);
    let (value, stored) =
        frame.row.as_ref().map_or((String::new(), String::new()), |row| (format!(" value={number}"), stored(row)));
    format!("<li{class}{value}><a href=#{number}><code>{line}</code> <b>{word}{reply}</b></a>{text}{stored}\n")
}

/// When a row was stored, by which process, and what is noted of it.
fn stored(row: &Row) -> String {
    let time = row.time.as_ref().map(|[day, time]| format!("<time>{day} {time} UTC</time>"));
    let process = row.process.as_deref().map(markup);
    let note = row.note.as_ref().map(|note| format!("\u{201c}{}\u{201d}", markup(note)));
    let parts: Vec<_> = [time, process, note].into_iter().flatten().collect();
    if parts.is_empty() { String::new() } else { format!(" <small>{}</small>", parts.join(", ")) }
}

/// The list of all steps, in parts that a browser can leave aside while they are out of sight.
fn list(frames: &[Frame]) -> String {
    let part = |(place, part): (usize, &[Frame])| {
        let first = place * PART + 1;
        let items: String = (first..).zip(part).map(|(place, frame)| item(place, frame)).collect();
        format!("<ol start={first}>\n{items}</ol>\n")
    };
    frames.chunks(PART).enumerate().map(part).collect()
}

fn session(name: &str, frames: &Frames) -> String {
    let [chain, total, rounded] = &frames.results;
    let name = markup(name);
    let clients = frames.start.clients.len();
    let plural = if clients == 1 { "" } else { "s" };
    let before = frames.frames.first().and_then(|frame| frame.row.as_ref());
    let before = before.map_or(String::new(), |row| format!("before row {}: ", row.number));
    let start = format!("{before}{clients} client{plural}; client {} is the named leader", frames.start.named);
    let whole = frames.part.as_deref().unwrap_or("The whole session");
    let all = frames.part.as_deref().unwrap_or("All steps");
    let live = if frames.part.is_some() { LIVE.replace(TEXT, &format!("{TEXT}{WHEN}")) } else { LIVE.into() };
    format!(
        "<body>\n<header>\n<h1>{name}</h1>\n{CONTROLS}</header>\n<main>\n\
         <p id=\"start\" hidden><b>start</b><span>{start}</span></p>\n<p id=\"no-step\" hidden>no step is taken</p>\n<div id=\"screen\">\n{live}\
         <section id=\"still\">\n<h2>{whole}</h2>\n{}</section>\n\
         <section id=\"results\">\n<h2>At the end</h2>\n\
         <p><span class=\"result\" id=\"chain-line\" tabindex=\"0\">{chain}</span> <span class=\"result\" id=\"total\">{total}</span> \
         <span class=\"result\" id=\"rounded\">{rounded}</span></p>\n</section>\n{KEY}</div>\n\
         <section id=\"all\">\n<h2>{all}</h2>\n<div id=\"steps\">\n{}</div>\n</section>\n</main>\n\
         <script type=\"application/json\" id=\"data\">{}</script>\n<script>{SCRIPT}</script>\n</body>\n</html>\n",
        still(&name, frames),
        list(&frames.frames),
        data(frames),
    )
}

/// The static picture, where it is not too long.
fn still(name: &str, frames: &Frames) -> String {
    if frames.frames.len() > DRAWN_LIMIT {
        let there = if frames.part.is_some() { "These are more than" } else { "The session has more than" };
        return format!("<p>{there} {DRAWN_LIMIT} steps: <code>cindrolf trace --svg</code> draws them all.</p>\n");
    }
    svg::drawing(name, frames)
}

const CONTROLS: &str = "\
<nav id=\"controls\" aria-label=\"Steps\">
<button type=\"button\" id=\"first\">|\u{2190} First</button>
<button type=\"button\" id=\"back\">\u{2190} Back</button>
<label for=\"slider\">Step</label>
<input type=\"range\" id=\"slider\" min=\"0\" value=\"0\">
<button type=\"button\" id=\"forward\">Forward \u{2192}</button>
<button type=\"button\" id=\"last\">Last \u{2192}|</button>
<output id=\"place\" for=\"slider\"></output>
</nav>
";

/// The step in words, and below it, of a row, when it was stored.
const TEXT: &str = "<p id=\"text\"></p>\n";
const WHEN: &str = "<p id=\"when\"></p>\n";

const LIVE: &str = "\
<div id=\"live\">
<section id=\"step\" aria-label=\"This step\">
<p><code id=\"line\"></code> <b id=\"reply\"></b></p>
<p id=\"text\"></p>
</section>
<p id=\"told\" role=\"status\" aria-live=\"polite\"></p>
<section id=\"lanes-part\" aria-label=\"Clients, step by step\">
<table id=\"lanes\"></table>
</section>
<div id=\"ledgers\">
<section>
<h2>Chain: the listed ledgers</h2>
<p id=\"no-chain\">No ledger is listed yet.</p>
<ol id=\"chain\" role=\"list\" tabindex=\"0\" aria-label=\"Listed ledgers, in the order of the list\"></ol>
</section>
<section>
<h2>Created, not listed</h2>
<p id=\"none-unlisted\">None.</p>
<ul id=\"unlisted\" role=\"list\" tabindex=\"0\" aria-label=\"Ledgers that are created and not listed\"></ul>
</section>
</div>
</div>
";

const KEY: &str = "\
<p id=\"key\">\u{25c6} or a heavy outline: changed by this step. A ledger is open to the right, dashed while it recovers, \
shaded once it is closed; the striped post is its fence. A striped lane writes to a ledger that is fenced.</p>
";

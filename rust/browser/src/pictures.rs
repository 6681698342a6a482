//! The static picture of a session: is it well formed, and has it every step, refusal and entry?

use crate::chromium::{Chromium, Outcome};
use crate::moments::Moments;
use std::collections::HashSet;

/// What the picture has: its root, its title, its description, and all that is drawn as text.
const DRAWN: &str = "(() => {
    const all = (what) => [...document.querySelectorAll(what)].map((element) => element.textContent);
    return [document.documentElement.localName, all('parsererror').length, all('title').join(), all('desc').join(), all('text').join('\\n')].join('\\u001f');
})()";

/// Opens the picture beside this page, and looks for what it must have.
pub fn check(browser: &mut Chromium, page: &str, moments: &Moments) -> Outcome<()> {
    let address = page.strip_suffix("html").ok_or("a page has the ending html")?.to_string() + "svg";
    browser.visit(&address)?;
    let drawn = browser.evaluate(DRAWN)?;
    let [root, errors, _, described, texts] = drawn.split('\u{1f}').collect::<Vec<_>>()[..] else {
        return Err(format!("the picture has too little: {drawn}"));
    };
    if (root, errors) != ("svg", "0") {
        return Err(format!("the picture is no well-formed SVG: {root}, {errors} errors"));
    }
    let texts: Vec<&str> = texts.split('\n').collect();
    let known: HashSet<&str> = texts.iter().copied().collect();
    // The first line is about the whole picture, and then there is one for each step.
    let described: Vec<&str> = described.lines().collect();
    for (place, moment) in moments.all.iter().enumerate().skip(1) {
        let reply = moment.reply.replace("refused: ", "refused, ");
        let row = moments.number(place);
        let step = format!("{row} {}, {reply}", moment.line);
        if !described.get(place).is_some_and(|line| line.starts_with(&step)) {
            return Err(format!("the picture does not describe {step}"));
        }
        let number = if moment.sentence.is_some() { format!("\u{2715} {row}") } else { row.to_string() };
        let refusal = moment.sentence.as_ref().map(|sentence| format!("\u{2715} {row} {reply}: {sentence}"));
        // A row has its time after its number.
        let timed = |number: &str| texts.iter().any(|text| text.starts_with(&format!("{number} ")));
        let is_there = |text: &str| if moments.rows.is_some() { timed(text) } else { known.contains(text) };
        if !is_there(&number) {
            return Err(format!("the picture has no number {number}"));
        }
        if let Some(text) = refusal.filter(|text| !known.contains(text.as_str())) {
            return Err(format!("the picture has no text {text}"));
        }
    }
    // The last of the results are the entries along the chain, in lines of their own.
    let entries =
        |words: &str| words.split(' ').filter(|word| word.contains(':')).map(String::from).collect::<Vec<_>>();
    let expected = entries(&moments.results[0]);
    let drawn: Vec<String> =
        texts.iter().filter(|text| !text.contains(' ') && text.contains(':')).map(|text| text.to_string()).collect();
    if drawn == expected {
        Ok(())
    } else {
        Err(format!("the picture has the entries {drawn:?}, expected {expected:?}"))
    }
}

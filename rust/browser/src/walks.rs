//! The ways through a page: by keys, by buttons, by the slider, and by the steps of the list and the lanes.

use crate::chromium::{Chromium, Outcome};
use crate::moments::Moments;
use crate::shown::compare;

const LEFT: (&str, u32) = ("ArrowLeft", 37);
const RIGHT: (&str, u32) = ("ArrowRight", 39);
const HOME: (&str, u32) = ("Home", 36);
const END: (&str, u32) = ("End", 35);

/// By arrow keys from the first step to the last and back.
pub fn keys(browser: &mut Chromium, moments: &Moments) -> Outcome<()> {
    let last = moments.all.len() - 1;
    compare(browser, moments, 0, "as it opens")?;
    for at in 1..=last {
        browser.press(RIGHT.0, RIGHT.1)?;
        compare(browser, moments, at, "forward by key")?;
    }
    browser.press(RIGHT.0, RIGHT.1)?;
    compare(browser, moments, last, "forward by key past the end")?;
    for at in (0..last).rev() {
        browser.press(LEFT.0, LEFT.1)?;
        compare(browser, moments, at, "back by key")?;
    }
    browser.press(LEFT.0, LEFT.1)?;
    compare(browser, moments, 0, "back by key past the start")
}

/// By the four buttons.
pub fn buttons(browser: &mut Chromium, moments: &Moments) -> Outcome<()> {
    let last = moments.all.len() - 1;
    let (forward, back) =
        (browser.middle("document.getElementById('forward')")?, browser.middle("document.getElementById('back')")?);
    for at in 1..=last {
        browser.click_at(&forward)?;
        compare(browser, moments, at, "forward by button")?;
    }
    for at in (0..last).rev() {
        browser.click_at(&back)?;
        compare(browser, moments, at, "back by button")?;
    }
    ends(browser, moments)
}

/// By the buttons First and Last, and by the keys Home and End.
pub fn ends(browser: &mut Chromium, moments: &Moments) -> Outcome<()> {
    let last = moments.all.len() - 1;
    browser.click("document.getElementById('last')")?;
    compare(browser, moments, last, "last by button")?;
    browser.click("document.getElementById('first')")?;
    compare(browser, moments, 0, "first by button")?;
    browser.evaluate("document.activeElement.blur()")?;
    browser.press(END.0, END.1)?;
    compare(browser, moments, last, "last by key")?;
    browser.press(HOME.0, HOME.1)?;
    compare(browser, moments, 0, "first by key")
}

/// By the slider: with its own keys, and by a click on it.
pub fn slider(browser: &mut Chromium, moments: &Moments) -> Outcome<()> {
    let last = moments.all.len() - 1;
    browser.evaluate("document.getElementById('slider').focus()")?;
    browser.press(END.0, END.1)?;
    compare(browser, moments, last, "last by slider")?;
    browser.press(HOME.0, HOME.1)?;
    compare(browser, moments, 0, "first by slider")?;
    if last > 0 {
        browser.press(RIGHT.0, RIGHT.1)?;
        compare(browser, moments, 1, "forward by slider")?;
        browser.press(LEFT.0, LEFT.1)?;
        compare(browser, moments, 0, "back by slider")?;
        browser.click("document.getElementById('slider')")?;
        let middle = browser.evaluate("document.getElementById('slider').value")?;
        let at: usize = middle.parse().map_err(|_| format!("the slider is at {middle}"))?;
        if !(last / 3..=last - last / 3).contains(&at) {
            return Err(format!("a click at the middle of the slider leads to {at} of {last}"));
        }
        compare(browser, moments, at, "middle by slider")?;
    }
    browser.evaluate("document.activeElement.blur()").map(drop)
}

/// By a click on a step: in the list, and at the head of the lanes.
pub fn steps(browser: &mut Chromium, moments: &Moments) -> Outcome<()> {
    let last = moments.all.len() - 1;
    let middle = last.div_ceil(2);
    if last > 0 {
        let number = moments.number(middle);
        browser.click(&format!("document.querySelector('#steps a[href=\"#{number}\"]')"))?;
        compare(browser, moments, middle, "by the list")?;
        browser.evaluate("scrollTo(0, 0)")?;
        browser.click(&format!("document.querySelector('#lanes th[data-step=\"{middle}\"]')"))?;
        compare(browser, moments, middle, "by the lanes")?;
    }
    Ok(())
}

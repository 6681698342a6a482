//! What holds for every reader: contrast, room on a projector and at 200 %, paper, no motion, names, and no scripts.

use crate::chromium::{Chromium, Outcome};
use crate::text::quoted;
use std::time::{Duration, Instant};

const CONTRAST: &str = include_str!("contrast.js");

/// Which parts of the page are to be seen.
const SEEN: &str = "['controls', 'live', 'still', 'results', 'steps']\
    .filter(id => document.getElementById(id).getClientRects().length > 0).join(' ')";
/// How many steps the list has.
const COUNT: &str = "document.querySelectorAll('#steps li').length";

fn expect(browser: &mut Chromium, what: &str, expression: &str, expected: &str) -> Outcome<()> {
    let found = browser.evaluate(expression)?;
    if found == expected { Ok(()) } else { Err(format!("{what}: {found}, expected {expected}")) }
}

/// That every word is told from its ground, light and dark, at the step that is shown.
pub fn contrast(browser: &mut Chromium) -> Outcome<()> {
    for scheme in ["light", "dark"] {
        browser.medium("screen", scheme)?;
        expect(browser, &format!("words of too little contrast, {scheme}"), CONTRAST, "")?;
    }
    browser.medium("screen", "light")
}

/// That step and controls are on a screen of 1280 by 720, with the lane of the step's client and the top of the ledgers;
/// and, where little is to be shown, all of the picture.
pub fn projector(browser: &mut Chromium, is_small: bool) -> Outcome<()> {
    let low = "['controls', 'step', 'lanes', 'ledgers', 'results']\
               .filter(id => document.getElementById(id).getBoundingClientRect().bottom > innerHeight)";
    let top = "document.getElementById('ledgers').getBoundingClientRect().top + 100 > innerHeight ? 'the ledgers' : ''";
    let parts = if is_small { format!("{low}.join(' ')") } else { top.into() };
    expect(browser, "below the screen", &format!("(scrollTo(0, 0), {parts})"), "")?;
    let lane = "[...document.querySelectorAll('#lanes td.now .mark:not(.none)')].filter(mark => {\
                const at = mark.getBoundingClientRect();\
                return !mark.contains(document.elementFromPoint(at.x + at.width / 2, at.y + at.height / 2)); }).length";
    expect(browser, "marks of this step out of sight", lane, "0")
}

/// That at 200 % nothing is cut off or needs to be moved sideways.
pub fn zoomed(browser: &mut Chromium) -> Outcome<()> {
    browser.size(640, 360)?;
    let wide = "[...document.querySelectorAll('body *')].filter(element => element.getBoundingClientRect().right > innerWidth + 1 && \
                !element.closest('#told, label')).map(element => element.id || element.className || element.tagName).join(' ')";
    let found = expect(browser, "wider than the page at 200 %", wide, "");
    browser.size(1280, 720)?;
    found
}

/// That paper has the picture, the results and all steps, and nothing to press.
pub fn printed(browser: &mut Chromium, steps: usize) -> Outcome<()> {
    browser.medium("print", "light")?;
    let found = expect(browser, "on paper", SEEN, "still results steps")
        .and_then(|()| expect(browser, "steps on paper", COUNT, &steps.to_string()));
    browser.medium("screen", "light")?;
    found
}

/// That nothing moves by itself.
pub fn still(browser: &mut Chromium) -> Outcome<()> {
    let moving = "[...document.querySelectorAll('*')].map(element => getComputedStyle(element)).filter(style => \
                  style.animationName !== 'none' || style.transitionDuration !== '0s' || style.scrollBehavior !== 'auto').length";
    expect(browser, "elements that move", moving, "0")
}

/// That what can be used has a name and a role, and the steps are a list, as a screen reader is told.
pub fn spoken(browser: &mut Chromium) -> Outcome<()> {
    browser.call("Accessibility.enable", "{}")?;
    let tree = browser.call("Accessibility.getFullAXTree", "{}")?;
    browser.call("Accessibility.disable", "{}")?;
    let wanted = [
        ("slider", "Step"),
        ("button", "First"),
        ("button", "Back"),
        ("button", "Forward"),
        ("button", "Last"),
        ("region", "This step"),
        ("heading", "Chain: the listed ledgers"),
        ("heading", "Created, not listed"),
    ];
    let nodes: Vec<&str> = tree.split("{\"nodeId\":").collect();
    for (role, name) in wanted {
        // The arrows beside a button's name may be escaped.
        let has = |node: &str| node.contains(&format!("\"value\":\"{role}\"")) && node.contains(name);
        if !nodes.iter().any(|node| has(node)) {
            return Err(format!("a screen reader is told of no {role} with the name {name}"));
        }
    }
    Ok(())
}

/// That without scripts the steps, the results and the whole picture are there.
pub fn unscripted(browser: &mut Chromium, address: &str, steps: usize) -> Outcome<()> {
    browser.call("Emulation.setScriptExecutionDisabled", "{\"value\":true}")?;
    browser.call("Page.navigate", "{\"url\":\"about:blank\"}")?;
    browser.call("Page.navigate", &format!("{{\"url\":{}}}", quoted(address)))?;
    // The page gets no events then, so it is asked until it is there.
    let start = Instant::now();
    while browser.evaluate("document.readyState")? != "complete" && start.elapsed() < Duration::from_secs(20) {
        std::thread::sleep(Duration::from_millis(10));
    }
    let found = expect(browser, "without scripts", SEEN, "still results steps")
        .and_then(|()| expect(browser, "steps without scripts", COUNT, &steps.to_string()));
    browser.call("Emulation.setScriptExecutionDisabled", "{\"value\":false}")?;
    found
}

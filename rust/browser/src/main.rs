//! Opens the pages of sessions and logs in headless Chromium, steps through them, and compares what they show.
//! `tests/trace` runs it.

mod chromium;
mod moments;
mod pictures;
mod readers;
mod shown;
mod text;
mod walks;

use chromium::{Chromium, Outcome, PAINTED};
use moments::{Moments, moments};
use std::path::{Path, PathBuf};
use std::process::ExitCode;
use std::time::Instant;

const HELP: &str = "\
usage: browser CHROMIUM FOLDER

For each NAME.html in FOLDER: opens it, steps from first to last and back, and compares what is shown with NAME.session,
with NAME.out and NAME.total, which the two programs have printed, and with the model. Where there is NAME.rows, the page
is of a log with the same steps: that file has the first row and the client whose rows are shown, or - for all.";

/// The most steps that are all gone through by keys and buttons. Longer sessions are tried at their ends and in the middle.
const MOST_WALKED: usize = 120;
/// The most steps whose picture is opened. That of 16,382 has 7 MB, and takes seconds.
const MOST_PICTURED: usize = 3_000;
/// The most milliseconds until a page is painted, and the most bytes that it has.
const MOST_TIME: f64 = 1000.0;
const TOO_LONG: usize = 2_000_000;
/// The most clients, listed ledgers and other ledgers that are on one screen together.
const ONE_SCREEN: [usize; 3] = [3, 3, 1];

/// A page and what belongs to it.
struct Page {
    name: String,
    address: String,
    bytes: usize,
    transcript: String,
    moments: Option<Moments>,
}

fn read(file: &Path) -> Outcome<Vec<u8>> {
    std::fs::read(file).map_err(|error| format!("{}: {error}", file.display()))
}

fn page(file: &Path) -> Outcome<Page> {
    let text =
        |ending: &str| read(&file.with_extension(ending)).map(|bytes| String::from_utf8_lossy(&bytes).into_owned());
    let (transcript, total) = (text("out")?, text("total")?);
    let moments = moments(&read(&file.with_extension("session"))?, &transcript, &total);
    let moments = match text("rows") {
        Err(_) => moments,
        Ok(rows) => {
            let (from, client) = rows.trim_end().split_once(' ').ok_or("NAME.rows has a row and a client")?;
            let from = from.parse().map_err(|_| format!("{from} is no row"))?;
            moments.map(|moments| moments.of_rows(from, client.parse().ok()))
        }
    };
    let bytes = read(file)?.len();
    let name = file.file_stem().unwrap_or_default().to_string_lossy().into_owned();
    Ok(Page { name, address: format!("file://{}", file.display()), bytes, transcript, moments })
}

/// Opens the page, at most three times where the machine is busy, and says how long it took to be painted.
fn open(browser: &mut Chromium, page: &Page) -> Outcome<f64> {
    let mut best = f64::INFINITY;
    for _ in 0..3 {
        best = best.min(browser.visit(&page.address)?);
        if best < MOST_TIME {
            return Ok(best);
        }
    }
    Err(format!("painted only after {best:.0} ms, and at most {MOST_TIME} are allowed"))
}

/// How many milliseconds the slider takes from the start to the end, with the picture painted.
fn jump(browser: &mut Chromium) -> Outcome<f64> {
    let moved = "document.getElementById('slider').value = 1e9, document.getElementById('slider').dispatchEvent(new Event('input'))";
    let time = browser
        .evaluate(&format!("(globalThis.since = performance.now(), {moved}, {PAINTED}, performance.now() - since)"))?;
    time.parse().map_err(|_| format!("no time: {time}"))
}

/// Tries one page in every way.
fn check(browser: &mut Chromium, page: &Page) -> Outcome<String> {
    if page.bytes >= TOO_LONG {
        return Err(format!("it has {} bytes", page.bytes));
    }
    let time = open(browser, page)?;
    let names = browser.evaluate("document.title + '\\n' + document.querySelector('h1').textContent")?;
    let is_log = page.moments.as_ref().is_some_and(|moments| moments.rows.is_some());
    if names != format!("{0}.{1}\n{0}.{1}", page.name, if is_log { "log" } else { "session" }) {
        return Err(format!("its title and heading are {names}"));
    }
    let Some(moments) = &page.moments else {
        let shown = browser.evaluate("document.getElementById('reply').textContent")?;
        let said = page.transcript.trim_end();
        return if shown == said { Ok(format!("says {said}")) } else { Err(format!("says {shown}, expected {said}")) };
    };
    let steps = moments.all.len() - 1;
    if steps <= MOST_WALKED {
        walks::keys(browser, moments)?;
        walks::buttons(browser, moments)?;
        walks::steps(browser, moments)?;
        fits(browser, moments)?;
    } else {
        walks::ends(browser, moments)?;
    }
    walks::slider(browser, moments)?;
    browser.press("Home", 36)?;
    let jumped = jump(browser)?;
    if jumped >= MOST_TIME {
        return Err(format!("the slider takes {jumped:.0} ms from the start to the end"));
    }
    readers::printed(browser, steps)?;
    Ok(format!("{steps} steps, {} bytes, painted after {time:.0} ms, to its end in {jumped:.0} ms", page.bytes))
}

/// What is asked of the picture at a refused step, if there is one, and at the end.
fn fits(browser: &mut Chromium, moments: &Moments) -> Outcome<()> {
    let refused = moments.all.iter().rposition(|moment| moment.sentence.is_some());
    for at in refused.into_iter().chain([moments.all.len() - 1]) {
        browser.evaluate(&format!("(document.getElementById('slider').value = {at}, document.getElementById('slider').dispatchEvent(new Event('input')))"))?;
        readers::contrast(browser)?;
        readers::zoomed(browser)?;
        let moment = &moments.all[at];
        let sizes = [moment.clients.len(), moment.chain.len(), moment.unlisted.len()];
        readers::projector(browser, sizes.iter().zip(ONE_SCREEN).all(|(&size, most)| size <= most))?;
    }
    readers::still(browser)?;
    readers::spoken(browser)
}

fn run(program: &str, folder: &Path) -> Outcome<usize> {
    let folder = folder.canonicalize().map_err(|error| format!("{}: {error}", folder.display()))?;
    let entries = std::fs::read_dir(&folder).map_err(|error| error.to_string())?;
    let mut files: Vec<PathBuf> = entries.filter_map(|entry| entry.ok().map(|entry| entry.path())).collect();
    files.retain(|file| file.extension().is_some_and(|extension| extension == "html"));
    files.sort();
    let mut browser = Chromium::start(program, &folder)?;
    browser.size(1280, 720)?;
    browser.medium("screen", "light")?;
    for file in &files {
        let start = Instant::now();
        let page = page(file)?;
        let name = &page.name;
        let said = check(&mut browser, &page).map_err(|wrong| format!("{name}: {wrong}"))?;
        if let Some(error) = browser.errors.first() {
            return Err(format!("{name}: the page reports an error: {error}"));
        }
        if let Some(moments) = &page.moments {
            if moments.all.len() <= MOST_PICTURED {
                pictures::check(&mut browser, &page.address, moments).map_err(|wrong| format!("{name}: {wrong}"))?;
            }
            readers::unscripted(&mut browser, &page.address, moments.all.len() - 1)
                .map_err(|wrong| format!("{name}: {wrong}"))?;
        }
        println!("{name}: {said} ({:.1} s)", start.elapsed().as_secs_f64());
    }
    Ok(files.len())
}

fn main() -> ExitCode {
    let words: Vec<String> = std::env::args().skip(1).collect();
    let [program, folder] = &words[..] else {
        eprintln!("{HELP}");
        return ExitCode::from(2);
    };
    match run(program, Path::new(folder)) {
        Ok(0) => {
            eprintln!("browser: there is no page in {folder}");
            ExitCode::FAILURE
        }
        Ok(count) => {
            println!("{count} pages");
            ExitCode::SUCCESS
        }
        Err(wrong) => {
            eprintln!("browser: {wrong}");
            ExitCode::FAILURE
        }
    }
}

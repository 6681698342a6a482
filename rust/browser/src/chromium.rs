//! A headless Chromium, driven by the DevTools protocol over its pipe: JSON messages, each ended by byte 0.

use crate::text::{decoded, quoted};
use std::io::{BufRead, BufReader, Write};
use std::path::Path;
use std::process::{Child, ChildStdin, Command, Stdio};
use std::sync::mpsc::{Receiver, channel};
use std::time::{Duration, Instant};

/// How long an answer may take.
const DEADLINE: Duration = Duration::from_secs(30);

/// What went wrong, in words.
pub type Outcome<T> = Result<T, String>;

/// A running browser with one open page.
pub struct Chromium {
    child: Child,
    commands: ChildStdin,
    messages: Receiver<String>,
    session: String,
    calls: u64,
    /// What the page has reported as errors.
    pub errors: Vec<String>,
}

/// Waits in the page until what has changed is painted.
pub const PAINTED: &str = "await new Promise(done => requestAnimationFrame(() => requestAnimationFrame(done)))";

/// The pipe is file descriptors 3 and 4 of the browser.
const START: &str = "exec \"$@\" 3<&0 4>&1 </dev/null >/dev/null 2>\"$LOG\"";

impl Chromium {
    /// Starts this program, with all that it keeps in this folder.
    pub fn start(program: &str, folder: &Path) -> Outcome<Self> {
        let profile = format!("--user-data-dir={}", folder.join("profile").display());
        let mut child = Command::new("sh")
            .args([
                "-c",
                START,
                "sh",
                program,
                "--headless",
                "--remote-debugging-pipe",
                "--no-sandbox",
                "--no-first-run",
            ])
            .args(["--disable-gpu", "--disable-dev-shm-usage", "--hide-scrollbars", "--window-size=1280,720", &profile])
            .arg("about:blank")
            .env("LOG", folder.join("chromium.log"))
            .stdin(Stdio::piped())
            .stdout(Stdio::piped())
            .spawn()
            .map_err(|error| format!("{program} does not start: {error}"))?;
        let commands = child.stdin.take().ok_or("no pipe to the browser")?;
        let mut answers = BufReader::new(child.stdout.take().ok_or("no pipe from the browser")?);
        let (sender, messages) = channel();
        std::thread::spawn(move || {
            let mut message = Vec::new();
            while answers.read_until(0, &mut message).is_ok_and(|count| count > 0) {
                message.pop();
                if sender.send(String::from_utf8_lossy(&message).into_owned()).is_err() {
                    break;
                }
                message.clear();
            }
        });
        let mut browser = Chromium { child, commands, messages, session: String::new(), calls: 0, errors: Vec::new() };
        browser.open()?;
        Ok(browser)
    }

    fn open(&mut self) -> Outcome<()> {
        let made = self.call("Target.createTarget", "{\"url\":\"about:blank\"}")?;
        let target = field(&made, "targetId")?;
        let attached =
            self.call("Target.attachToTarget", &format!("{{\"targetId\":\"{target}\",\"flatten\":true}}"))?;
        self.session = format!(",\"sessionId\":\"{}\"", field(&attached, "sessionId")?);
        for domain in ["Page", "Runtime", "Log"] {
            self.call(&format!("{domain}.enable"), "{}")?;
        }
        Ok(())
    }

    /// Calls a method, and gives the whole answer.
    pub fn call(&mut self, method: &str, parameters: &str) -> Outcome<String> {
        let id = self.send(method, parameters)?;
        self.answer(id, method)
    }

    /// Calls a method twice, and waits for both answers together.
    fn call_twice(&mut self, method: &str, parameters: [String; 2]) -> Outcome<()> {
        let [first, second] = &parameters;
        let ids = [self.send(method, first)?, self.send(method, second)?];
        ids.into_iter().try_for_each(|id| self.answer(id, method).map(drop))
    }

    fn send(&mut self, method: &str, parameters: &str) -> Outcome<u64> {
        self.calls += 1;
        let id = self.calls;
        let message = format!("{{\"id\":{id},\"method\":\"{method}\",\"params\":{parameters}{}}}\0", self.session);
        let sent = self.commands.write_all(message.as_bytes());
        sent.map(|()| id).map_err(|error| format!("{method}: the browser has gone: {error}"))
    }

    /// Waits for the answer to a call.
    fn answer(&mut self, id: u64, method: &str) -> Outcome<String> {
        let (start, wanted) = (Instant::now(), format!("{{\"id\":{id},"));
        loop {
            let left = DEADLINE.saturating_sub(start.elapsed());
            let message = self.messages.recv_timeout(left);
            let message = message.map_err(|_| format!("{method}: no answer within {} s", DEADLINE.as_secs()))?;
            if message.starts_with(&wanted) {
                let failed = message.starts_with(&format!("{wanted}\"error\":"));
                return if failed { Err(format!("{method}: {message}")) } else { Ok(message) };
            }
            let is_error = message.contains("\"level\":\"error\"") || message.contains("\"Runtime.exceptionThrown\"");
            if is_error {
                self.errors.push(message);
            }
        }
    }

    /// The value of an expression in the page, which may wait, as text.
    pub fn evaluate(&mut self, expression: &str) -> Outcome<String> {
        let expression = quoted(&format!("(async () => encodeURIComponent({expression}))()"));
        let parameters = format!("{{\"expression\":{expression},\"awaitPromise\":true,\"returnByValue\":true}}");
        let answer = self.call("Runtime.evaluate", &parameters)?;
        if answer.contains("\"exceptionDetails\"") {
            return Err(format!("{expression}: {answer}"));
        }
        decoded(field(&answer, "value")?)
    }

    /// Opens a page, and waits until it is painted: how many milliseconds that took from the start of the navigation.
    pub fn visit(&mut self, address: &str) -> Outcome<f64> {
        // Only another page starts again; a part of the same one would not.
        self.call("Page.navigate", "{\"url\":\"about:blank\"}")?;
        let answer = self.call("Page.navigate", &format!("{{\"url\":{}}}", quoted(address)))?;
        if answer.contains("\"errorText\"") {
            return Err(format!("{address} does not open: {answer}"));
        }
        let loaded =
            "await new Promise(done => document.readyState === 'complete' ? done() : addEventListener('load', done))";
        let time = self.evaluate(&format!("({loaded}, {PAINTED}, performance.now())"))?;
        time.parse().map_err(|_| format!("no time: {time}"))
    }

    /// Presses and lets go of a key that types nothing, by its name and its number.
    pub fn press(&mut self, key: &str, number: u32) -> Outcome<()> {
        let event = |kind| {
            format!("{{\"type\":\"{kind}\",\"key\":\"{key}\",\"code\":\"{key}\",\"windowsVirtualKeyCode\":{number}}}")
        };
        self.call_twice("Input.dispatchKeyEvent", ["rawKeyDown", "keyUp"].map(event))
    }

    /// The middle of the element that the expression gives, once that is in sight.
    pub fn middle(&mut self, element: &str) -> Outcome<String> {
        let place = "at => `\"x\":${at.x + at.width / 2},\"y\":${at.y + at.height / 2}`";
        let seen = format!("({element}).scrollIntoView({{block: 'nearest'}})");
        self.evaluate(&format!("({seen}, ({place})(({element}).getBoundingClientRect()))"))
    }

    /// Clicks at a place.
    pub fn click_at(&mut self, place: &str) -> Outcome<()> {
        let event = |kind| format!("{{\"type\":\"{kind}\",{place},\"button\":\"left\",\"clickCount\":1}}");
        self.call_twice("Input.dispatchMouseEvent", ["mousePressed", "mouseReleased"].map(event))
    }

    /// Clicks at the middle of the element that the expression gives.
    pub fn click(&mut self, element: &str) -> Outcome<()> {
        let place = self.middle(element)?;
        self.click_at(&place)
    }

    /// Sets the size of the page in its own pixels, and waits until it is drawn so.
    pub fn size(&mut self, width: u32, height: u32) -> Outcome<()> {
        let parameters = format!("{{\"width\":{width},\"height\":{height},\"deviceScaleFactor\":1,\"mobile\":false}}");
        self.call("Emulation.setDeviceMetricsOverride", &parameters)?;
        self.evaluate(&format!("({PAINTED}, '')")).map(drop)
    }

    /// What the reader's system asks for: a medium, and light or dark.
    pub fn medium(&mut self, medium: &str, scheme: &str) -> Outcome<()> {
        let features = format!("[{{\"name\":\"prefers-color-scheme\",\"value\":\"{scheme}\"}}]");
        self.call("Emulation.setEmulatedMedia", &format!("{{\"media\":\"{medium}\",\"features\":{features}}}"))
            .map(drop)
    }
}

impl Drop for Chromium {
    fn drop(&mut self) {
        self.session.clear();
        let _ = self.call("Browser.close", "{}");
        let start = Instant::now();
        while start.elapsed() < Duration::from_secs(5) {
            if let Ok(Some(_)) = self.child.try_wait() {
                return;
            }
            std::thread::sleep(Duration::from_millis(20));
        }
        let _ = self.child.kill();
        let _ = self.child.wait();
    }
}

/// The text of a field that has no quote in it.
fn field<'a>(message: &'a str, name: &str) -> Outcome<&'a str> {
    let (_, rest) = message.split_once(&format!("\"{name}\":\"")).ok_or(format!("no {name} in {message}"))?;
    rest.split('"').next().ok_or(format!("no {name}"))
}

//! Chromium over its pipe of the DevTools protocol: a JSON text each way, ended by a zero byte.

use std::fs::{File, OpenOptions};
use std::io::{Read, Write};
use std::path::Path;
use std::process::{Child, Command, Stdio};

pub struct Browser {
    child: Child,
    to: File,
    from: File,
    /// What was read behind the last text.
    rest: Vec<u8>,
    number: usize,
    attached: String,
    /// What the console and the log of the browser have said.
    pub messages: Vec<String>,
}

/// The events that tell a message.
const TELLING: [&str; 4] = ["Runtime.consoleAPICalled", "Runtime.exceptionThrown", "Log.entryAdded", "Network.requestWillBeSent"];

impl Browser {
    /// Starts it with an empty profile in a folder.
    pub fn start(folder: &Path) -> Browser {
        let [to, from] = ["to", "from"].map(|name| {
            let path = folder.join(name);
            assert!(Command::new("mkfifo").arg(&path).status().expect("mkfifo").success());
            path
        });
        // The browser reads from 3 and writes to 4, and ends when nobody is behind them. One that hangs must not hang the test.
        let line = "exec timeout 600 chromium --headless --no-sandbox --disable-gpu --disable-dev-shm-usage --no-first-run --remote-debugging-pipe \
                    --user-data-dir=\"$1\" about:blank 3<\"$2\" 4>\"$3\"";
        let mut command = Command::new("sh");
        command.args(["-c", line, "sh"]).arg(folder.join("profile")).args([&to, &from]);
        let child = command.stdin(Stdio::null()).stdout(Stdio::null()).stderr(Stdio::null()).spawn().expect("a shell");
        let (to, from) = (OpenOptions::new().write(true).open(to).expect("a pipe"), File::open(from).expect("a pipe"));
        let mut browser = Browser { child, to, from, rest: vec![], number: 0, attached: String::new(), messages: vec![] };
        let made = browser.call("Target.createTarget", "\"url\":\"about:blank\"");
        let target = text_of(&made, "targetId");
        let made = browser.call("Target.attachToTarget", &format!("\"targetId\":\"{target}\",\"flatten\":true"));
        browser.attached = format!(",\"sessionId\":\"{}\"", text_of(&made, "sessionId"));
        for domain in ["Page", "Runtime", "Log", "Network"] {
            browser.call(&format!("{domain}.enable"), "");
        }
        browser
    }

    /// Calls a method and gives its answer; what is told meanwhile is kept.
    fn call(&mut self, method: &str, parameters: &str) -> String {
        self.number += 1;
        let asked = format!("{{\"id\":{},\"method\":\"{method}\",\"params\":{{{parameters}}}{}}}\0", self.number, self.attached);
        self.to.write_all(asked.as_bytes()).expect("the browser reads");
        let answer = format!("{{\"id\":{},", self.number);
        loop {
            let text = self.next();
            if text.starts_with(&answer) {
                assert!(!text.contains("\"error\":{") && !text.contains("\"exceptionDetails\""), "{method}: {text}");
                return text;
            }
        }
    }

    /// The next text.
    fn next(&mut self) -> String {
        let mut room = [0; 65_536];
        loop {
            if let Some(end) = self.rest.iter().position(|byte| *byte == 0) {
                let text: Vec<u8> = self.rest.drain(..=end).collect();
                let text = String::from_utf8_lossy(&text[..end]).into_owned();
                self.hear(&text);
                return text;
            }
            let more = self.from.read(&mut room).expect("the browser writes");
            assert!(more > 0, "the browser has ended");
            self.rest.extend(&room[..more]);
        }
    }

    /// A page may ask for itself, and for nothing else.
    fn hear(&mut self, text: &str) {
        let telling = TELLING.iter().any(|name| text.starts_with(&format!("{{\"method\":\"{name}\"")));
        if telling && !text.contains("\"type\":\"Document\"") {
            self.messages.push(text.to_string());
        }
    }

    pub fn size(&mut self, width: usize, height: usize, phone: bool) {
        let size = format!("\"width\":{width},\"height\":{height},\"deviceScaleFactor\":1,\"mobile\":{phone}");
        self.call("Emulation.setDeviceMetricsOverride", &size);
    }

    pub fn open(&mut self, path: &Path) {
        self.call("Page.navigate", &format!("\"url\":\"file://{}\"", path.display()));
        while !self.next().starts_with("{\"method\":\"Page.loadEventFired\"") {}
    }

    /// What an expression comes to in the page, as a text.
    pub fn ask(&mut self, expression: &str) -> String {
        let quoted = expression.replace('\\', "\\\\").replace('"', "\\\"");
        let answer = self.call("Runtime.evaluate", &format!("\"expression\":\"String({quoted})\",\"returnByValue\":true"));
        text_of(&answer, "value")
    }

    /// The whole page, down to a limit that a picture of a long one would pass.
    pub fn screenshot(&mut self) -> Vec<u8> {
        let answer = self.call("Page.captureScreenshot", "\"format\":\"png\",\"captureBeyondViewport\":false");
        decoded(&text_of(&answer, "data"))
    }

    pub fn print(&mut self) -> Vec<u8> {
        let answer = self.call("Page.printToPDF", "\"preferCSSPageSize\":true,\"printBackground\":false");
        decoded(&text_of(&answer, "data"))
    }

    pub fn end(mut self) {
        self.attached.clear();
        self.call("Browser.close", "");
        self.child.wait().expect("the browser ends");
    }
}

impl Drop for Browser {
    fn drop(&mut self) {
        // Where a test has failed, it still runs.
        let _ = self.child.kill();
        let _ = self.child.wait();
    }
}

/// The first text with a name: none that is asked for here has anything that JSON escapes.
fn text_of(json: &str, name: &str) -> String {
    let rest = json.split(&format!("\"{name}\":\"")).nth(1).unwrap_or_else(|| panic!("{name} in {json}"));
    rest.split('"').next().unwrap_or_default().to_string()
}

/// Base 64.
fn decoded(text: &str) -> Vec<u8> {
    let value = |letter: u8| match letter {
        b'A'..=b'Z' => u32::from(letter - b'A'),
        b'a'..=b'z' => u32::from(letter - b'a') + 26,
        b'0'..=b'9' => u32::from(letter - b'0') + 52,
        b'+' => 62,
        _ => 63,
    };
    let letters: Vec<u8> = text.bytes().filter(|letter| *letter != b'=').collect();
    let four = |part: &[u8]| {
        let number = part.iter().fold(0, |number, letter| number << 6 | value(*letter)) << (6 * (4 - part.len()));
        number.to_be_bytes()[1..part.len()].to_vec()
    };
    letters.chunks(4).flat_map(four).collect()
}

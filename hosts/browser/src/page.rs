//! A page that is open in a browser.

use std::fs;
use std::path::Path;
use std::time::Instant;

use crate::base64::decoded;
use crate::complaints::{complaints, thrown};
use crate::json::{quoted, Value};
use crate::pipe::{Event, PATIENCE};
use crate::{paper, Browser};

/// A screen: its width and height in CSS pixels, whether it is a telephone's, and how many of its own pixels a CSS pixel is wide.
#[derive(Clone, Copy, Debug, PartialEq)]
pub struct Size {
    pub width: u32,
    pub height: u32,
    pub mobile: bool,
    pub scale: f64,
}

/// What a page is laid out for.
#[derive(Clone, Copy, Debug, PartialEq, Eq)]
pub enum Media {
    Screen,
    Print,
}

/// A page; it is closed when it is dropped.
pub struct Page<'a> {
    browser: &'a Browser,
    /// Its names among the browser's pages, and in messages.
    target: String,
    session: String,
    address: String,
}

impl<'a> Page<'a> {
    pub(crate) fn open(browser: &'a Browser, path: &Path, size: Size) -> Result<Page<'a>, String> {
        let address = address(path)?;
        let blank = r#"{"url":"about:blank","newWindow":true}"#;
        let created = browser.pipe.ask("", "Target.createTarget", blank)?;
        let mut page = Page {
            browser,
            target: created.at("targetId").shown(),
            session: String::new(),
            address,
        };
        let target = format!(r#"{{"targetId":{},"flatten":true}}"#, quoted(&page.target));
        let attached = browser.pipe.ask("", "Target.attachToTarget", &target)?;
        page.session = attached.at("sessionId").shown();
        page.watch()?;
        page.take_size(size)?;
        let opened = page.load();
        opened.map_err(|fault| format!("{}: {fault}", path.display()))?;
        Ok(page)
    }

    fn ask(&self, method: &str, params: &str) -> Result<Value, String> {
        self.browser.pipe.ask(&self.session, method, params)
    }

    /// From here on everything that the page says and asks for is told.
    fn watch(&self) -> Result<(), String> {
        for domain in ["Inspector", "Page", "Runtime", "Log", "Network"] {
            self.ask(&format!("{domain}.enable"), "{}")?;
        }
        self.ask("Page.setLifecycleEventsEnabled", r#"{"enabled":true}"#)?;
        let apart = r#"{"autoAttach":true,"waitForDebuggerOnStart":false,"flatten":true}"#;
        self.ask("Target.setAutoAttach", apart)?;
        Ok(())
    }

    fn take_size(&self, size: Size) -> Result<(), String> {
        let Size {
            width,
            height,
            mobile,
            scale,
        } = size;
        let metrics = format!(
            r#"{{"width":{width},"height":{height},"screenWidth":{width},"screenHeight":{height},"mobile":{mobile},"deviceScaleFactor":{scale}}}"#
        );
        self.ask("Emulation.setDeviceMetricsOverride", &metrics)?;
        Ok(())
    }

    /// Goes to the address, and waits until the page is loaded.
    fn load(&self) -> Result<(), String> {
        let deadline = Instant::now() + PATIENCE;
        let url = format!(r#"{{"url":{}}}"#, quoted(&self.address));
        let gone = self.ask("Page.navigate", &url)?;
        if let Some(fault) = gone.at("errorText").text() {
            return Err(format!("the page cannot be opened: {fault}"));
        }
        let is_loaded = |event: &Event| {
            event.method == "Page.lifecycleEvent"
                && event.params.at("name").text() == Some("load")
                && event.params.at("loaderId") == gone.at("loaderId")
        };
        let pipe = &self.browser.pipe;
        let loaded = pipe.wait_for(&self.session, deadline, is_loaded);
        loaded.map_err(|fault| {
            let complaints = complaints(&pipe.events(&self.session), &self.address);
            format!("the page is not loaded: {fault}; it complains of {complaints:?}")
        })
    }

    /// The string that an expression gives in the page, now or as a promise. What the page throws is the fault.
    pub fn evaluate(&self, expression: &str) -> Result<String, String> {
        let params = format!(
            r#"{{"expression":{},"returnByValue":true,"awaitPromise":true}}"#,
            quoted(expression)
        );
        let reply = self.ask("Runtime.evaluate", &params)?;
        match (reply.at("exceptionDetails"), reply.at("result.value")) {
            (Value::Null, Value::Text(text)) => Ok(text.clone()),
            (Value::Null, value) => {
                let (kind, value) = (reply.at("result.type").shown(), value.shown());
                Err(format!(
                    "the expression is expected to give a string, and gives {value}, of type {kind}: {expression}"
                ))
            }
            (details, _) => Err(thrown(details)),
        }
    }

    /// All that the page said on its console and its log since it was opened, each request that failed, and each for anything but the page itself
    /// and its `data:` addresses. A page that is whole and sound gives none.
    pub fn complaints(&self) -> Vec<String> {
        // a little after its load a page asks for its icon; the answer comes behind that
        let answer = self.evaluate("new Promise(done => setTimeout(() => done(''), 100))");
        let events = self.browser.pipe.events(&self.session);
        let mut lines = complaints(&events, &self.address);
        lines.extend(answer.err().map(|fault| format!("no answer: {fault}")));
        lines
    }

    /// Lays the page out for the screen or for paper.
    pub fn emulate(&self, media: Media) -> Result<(), String> {
        let media = match media {
            Media::Screen => r#"{"media":"screen"}"#,
            Media::Print => r#"{"media":"print"}"#,
        };
        self.ask("Emulation.setEmulatedMedia", media).map(drop)
    }

    /// Shows the page as someone sees it who sees no colours, or as it is.
    pub fn without_colour(&self, without: bool) -> Result<(), String> {
        let sight = match without {
            true => r#"{"type":"achromatopsia"}"#,
            false => r#"{"type":"none"}"#,
        };
        let method = "Emulation.setEmulatedVisionDeficiency";
        self.ask(method, sight).map(drop)
    }

    /// Writes a picture of the whole page, as wide and as high as what stands on it, as a PNG file.
    pub fn screenshot(&self, path: &Path) -> Result<(), String> {
        let metrics = self.ask("Page.getLayoutMetrics", "{}")?;
        let side = |name: &str| {
            let side = metrics.at("cssContentSize").at(name).number();
            side.ok_or("Page.getLayoutMetrics: the browser tells no size")
        };
        let (width, height) = (side("width")?, side("height")?);
        let params = format!(
            r#"{{"format":"png","captureBeyondViewport":true,"clip":{{"x":0,"y":0,"width":{width},"height":{height},"scale":1}}}}"#
        );
        let reply = self.ask("Page.captureScreenshot", &params)?;
        written(&reply, path).map(drop)
    }

    /// Prints the page on A4, or on the paper that its style names, as a PDF file: how many pages it has.
    pub fn pdf(&self, path: &Path) -> Result<usize, String> {
        let params = r#"{"printBackground":true,"preferCSSPageSize":true,"paperWidth":8.2677,"paperHeight":11.6929}"#;
        let reply = self.ask("Page.printToPDF", params)?;
        paper::pages(&written(&reply, path)?)
    }
}

impl Drop for Page<'_> {
    fn drop(&mut self) {
        let target = format!(r#"{{"targetId":{}}}"#, quoted(&self.target));
        let _ = self.browser.pipe.ask("", "Target.closeTarget", &target);
        self.browser.pipe.forget(&self.session);
    }
}

/// Writes the file that a reply has as base64: its bytes.
fn written(reply: &Value, path: &Path) -> Result<Vec<u8>, String> {
    let bytes = reply.at("data").text().and_then(decoded);
    let bytes = bytes.ok_or("the browser gives a file that is no base64")?;
    let done = fs::write(path, &bytes);
    done.map_err(|error| format!("{} cannot be written: {error}", path.display()))?;
    Ok(bytes)
}

/// The address of a file.
fn address(path: &Path) -> Result<String, String> {
    let shown = path.display();
    let whole = fs::canonicalize(path).map_err(|error| format!("{shown}: {error}"))?;
    if !whole.is_file() {
        return Err(format!("{shown}: a file is expected, and this is none"));
    }
    let bytes = whole.as_os_str().as_encoded_bytes().iter();
    let letters = bytes.map(|&byte| match byte {
        b'a'..=b'z' | b'A'..=b'Z' | b'0'..=b'9' | b'/' | b'-' | b'.' | b'_' | b'~' => {
            char::from(byte).to_string()
        }
        _ => format!("%{byte:02X}"),
    });
    Ok(format!("file://{}", letters.collect::<String>()))
}

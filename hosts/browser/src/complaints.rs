//! What a page complains of, and what it asks for besides itself, each as one line.

use crate::json::Value;
use crate::pipe::Event;

/// A line shows at most so many characters of an address.
const ADDRESS: usize = 200;

/// The complaints among the events of the page at this address.
pub fn complaints(events: &[Event], address: &str) -> Vec<String> {
    let lines = events.iter().filter_map(|event| {
        let params = &event.params;
        match event.method.as_str() {
            "Runtime.consoleAPICalled" => Some(said(params)),
            "Runtime.exceptionThrown" => {
                let thrown = thrown(params.at("exceptionDetails"));
                Some(format!("exception: {thrown}"))
            }
            "Log.entryAdded" => Some(logged(params.at("entry"))),
            "Network.loadingFailed" => Some(failed(params, events)),
            "Network.requestWillBeSent" => outside(params.at("request.url"), address),
            "Network.webSocketCreated" | "Network.webTransportCreated" => {
                outside(params.at("url"), address)
            }
            "Page.javascriptDialogOpening" => {
                let message = params.at("message").shown();
                Some(format!("dialog: {message}"))
            }
            "Target.attachedToTarget" => Some(apart(params.at("targetInfo"))),
            "Inspector.targetCrashed" => Some("the page's process has crashed".to_string()),
            _ => None,
        }
    });
    lines.map(|line| in_one_line(&line)).collect()
}

fn in_one_line(words: &str) -> String {
    let words: Vec<&str> = words.split_whitespace().collect();
    words.join(" ")
}

fn shortened(address: &Value) -> String {
    address.shown().chars().take(ADDRESS).collect()
}

/// What was said on the console.
fn said(params: &Value) -> String {
    let words = params.at("args").items().iter().map(|argument| {
        let value = match (argument.at("value"), argument.at("description")) {
            (Value::Null, Value::Null) => match argument.at("subtype") {
                Value::Null => argument.at("type"),
                subtype => subtype,
            },
            (Value::Null | Value::List(_) | Value::Record(_), description) => description,
            (value, _) => value,
        };
        value.shown()
    });
    let words: Vec<String> = words.collect();
    let kind = params.at("type").shown();
    format!("console.{kind}: {}", words.join(" "))
}

/// The text of an exception: its description, or the value that was thrown.
pub fn thrown(details: &Value) -> String {
    let exception = details.at("exception");
    let known = ["description", "value"].map(|key| exception.at(key));
    let known = known.into_iter().find(|value| **value != Value::Null);
    known.unwrap_or(details.at("text")).shown()
}

fn logged(entry: &Value) -> String {
    let [source, level, text] = ["source", "level", "text"].map(|key| entry.at(key).shown());
    match entry.at("url") {
        Value::Null => format!("log: {source}, {level}: {text}"),
        url => format!("log: {source}, {level}: {text}: {}", shortened(url)),
    }
}

/// A request that failed. Its address is in the event that began it.
fn failed(params: &Value, events: &[Event]) -> String {
    let is_same = |event: &&Event| {
        event.method == "Network.requestWillBeSent"
            && event.params.at("requestId") == params.at("requestId")
    };
    let begun = events.iter().rfind(is_same);
    let address = begun.map_or(&Value::Null, |event| event.params.at("request.url"));
    let fault = params.at("errorText").shown();
    format!("failed request: {fault}: {}", shortened(address))
}

/// A request for anything but the page itself and what stands in it.
fn outside(url: &Value, address: &str) -> Option<String> {
    let is_inside = |url: &str| url == address || url.starts_with("data:");
    match url.text().is_some_and(is_inside) {
        true => None,
        false => Some(format!("request: {}", shortened(url))),
    }
}

/// A frame or a worker whose events do not come, so that what it asks for is not known.
fn apart(target: &Value) -> String {
    let (kind, url) = (target.at("type").shown(), shortened(target.at("url")));
    format!("{kind} that is not watched: {url}")
}

//! Requests, and why lines are refused.

use crate::edit::{Edit, Refusal};
use crate::straight;
use serde_json::Value;

pub enum Request {
    Network {
        nodes: u32,
        dest: u32,
        links: Vec<(u32, u32)>,
    },
    Edit(Edit),
    Batch {
        edits: Vec<Edit>,
    },
    Destination {
        dest: u32,
    },
    Walk {
        x: u32,
    },
    Links,
    Counts,
    Hops,
}

/// Reads a request directly from the bytes of its line. If this fails, it reads the line as a JSON value, and the
/// request from that.
pub fn read_line(line: &[u8]) -> Result<Request, Refusal> {
    if let Some(request) = straight::request(line) {
        return Ok(request);
    }
    let value: Value = serde_json::from_slice(line).map_err(|_| Refusal::NotJson)?;
    request_in(&value).ok_or(Refusal::NotRequest)
}

fn request_in(value: &Value) -> Option<Request> {
    let [word, rest @ ..] = value.as_array()?.as_slice() else {
        return None;
    };
    Some(match (word.as_str()?, rest) {
        ("net", [nodes, dest, links]) => Request::Network {
            nodes: number(nodes)?,
            dest: number(dest)?,
            links: links.as_array()?.iter().map(link).collect::<Option<_>>()?,
        },
        ("batch", [edits]) => Request::Batch {
            edits: edits.as_array()?.iter().map(edit).collect::<Option<_>>()?,
        },
        ("dest", [dest]) => Request::Destination {
            dest: number(dest)?,
        },
        ("walk", [x]) => Request::Walk { x: number(x)? },
        ("links", []) => Request::Links,
        ("counts", []) => Request::Counts,
        ("hops", []) => Request::Hops,
        _ => Request::Edit(edit(value)?),
    })
}

fn edit(value: &Value) -> Option<Edit> {
    let [word, u, v] = value.as_array()?.as_slice() else {
        return None;
    };
    let (u, v) = (number(u)?, number(v)?);
    match word.as_str()? {
        "cut" => Some(Edit::Cut { u, v }),
        "add" => Some(Edit::Add { u, v }),
        "join" => Some(Edit::Join { u, v }),
        _ => None,
    }
}

fn link(value: &Value) -> Option<(u32, u32)> {
    match value.as_array()?.as_slice() {
        [tail, head] => Some((number(tail)?, number(head)?)),
        _ => None,
    }
}

fn number(value: &Value) -> Option<u32> {
    u32::try_from(value.as_u64()?).ok()
}

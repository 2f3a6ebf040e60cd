//! `vrbolist walk`: the tree of an item.

use super::Command;
use crate::answer::Answer;
use crate::args::{Given, Takes};
use crate::explain::{self, Judged};
use crate::files::{self, Item};
use crate::json::{object, Json};
use crate::stop::Stop;
use crate::text::{clip, counted, WIDTH};
use crate::tree::{self, Node};
use vrbolist::Refusal;

pub const COMMAND: Command = Command {
    name: "walk",
    help: "\
vrbolist walk FILE [--json]

Prints the elements of a DER item: offset, offset in hex, length of the contents, tag and value.
Where the item is not DER the tree goes up to the element at fault, which is marked. FILE is DER or
PEM.

Example:
  vrbolist walk tests/data/made/ut-crl-today.der
",
    takes: Takes { alone: &["FILE"], options: &[], switches: &[] },
    run,
};

fn run(given: &Given) -> Result<Answer, Stop> {
    let item = files::read_item(given.word(0))?;
    let head = format!("{}  read as {}, {} bytes\n", files::shown(given.word(0)), item.form, item.bytes.len());
    let base = object! {
        "command": "walk", "file": files::shown(given.word(0)), "form": item.form.as_str(), "size": item.bytes.len(),
    };
    Ok(match vrbolist::walk(&item.bytes) {
        Ok(count) => passed(head, base, &item, count),
        Err(refusal) => refused(head, base, &item, refusal),
    })
}

fn passed(head: String, base: Json, item: &Item, count: u64) -> Answer {
    let nodes = tree::read(&item.bytes, item.bytes.len()).nodes;
    let said = format!("PASSED   {}\n", counted(usize::try_from(count).unwrap_or(usize::MAX), "element"));
    let fields = object! { "count": count, "elements": elements(&nodes, &item.bytes) };
    Answer::passed(head + &drawn(&nodes, &item.bytes) + &said, base, fields)
}

fn refused(head: String, base: Json, item: &Item, refusal: Refusal) -> Answer {
    let at = usize::try_from(refusal.detail).unwrap_or(usize::MAX);
    let reading = tree::read(&item.bytes, at);
    let dashes = "-".repeat(indent(reading.depth));
    let mark = format!("{at:>6} {at:>5x} {:>6}  {dashes}> here\n", "FAULT");
    let head = head + &drawn(&reading.nodes, &item.bytes) + &mark;
    let base = base.with(object! { "elements": elements(&reading.nodes, &item.bytes) });
    Answer::refused(head, base, refusal, &explain::of_item(Judged::Item, refusal, item))
}

fn indent(depth: usize) -> usize {
    depth.saturating_sub(1).saturating_mul(2)
}

pub fn drawn(nodes: &[Node], bytes: &[u8]) -> String {
    nodes.iter().map(|node| line(node, bytes)).collect()
}

fn line(node: &Node, bytes: &[u8]) -> String {
    let left = format!("{:>6} {:>5x} {:>6}  {}", node.at, node.at, node.length, " ".repeat(indent(node.depth)));
    let right = format!("{} {}", tree::tag_name(node.tag), tree::value(node, bytes));
    clip(&(left + right.trim_end()), WIDTH) + "\n"
}

fn elements(nodes: &[Node], bytes: &[u8]) -> Vec<Json> {
    let one = |node: &Node| {
        object! {
            "offset": node.at, "depth": node.depth, "tag": node.tag, "name": tree::tag_name(node.tag),
            "length": node.length, "value": tree::value(node, bytes),
        }
    };
    nodes.iter().map(one).collect()
}

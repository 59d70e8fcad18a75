//! Chains of calls.

use crate::need::Need;
use std::collections::BTreeMap;

pub type Needs<'a> = BTreeMap<&'a str, Need<'a>>;

/// A function, and the bytes to the next one of the chain, or to its own deepest place.
pub type Link<'a> = (&'a str, i64);

/// The functions that no other calls.
pub fn tops<'a>(needs: &Needs<'a>) -> Vec<&'a str> {
    let called = |name: &str| needs.values().flat_map(|need| &need.calls).any(|(_, callee)| *callee == name);
    needs.keys().copied().filter(|name| !called(name)).collect()
}

pub fn deepest<'a>(needs: &Needs<'a>, top: &'a str) -> Result<Vec<Link<'a>>, String> {
    below(needs, top, &mut Vec::new())
}

fn below<'a>(needs: &Needs<'a>, name: &'a str, above: &mut Vec<&'a str>) -> Result<Vec<Link<'a>>, String> {
    if above.contains(&name) {
        return Err(format!("{name} calls itself"));
    }
    let need = needs.get(name).ok_or(format!("{name} is called and is not there"))?;
    above.push(name);
    let mut deepest = vec![(name, need.own)];
    for &(depth, callee) in &need.calls {
        let links = below(needs, callee, above)?;
        if depth + bytes(&links) > bytes(&deepest) {
            deepest = [vec![(name, depth)], links].concat();
        }
    }
    above.pop();
    Ok(deepest)
}

pub fn bytes(links: &[Link]) -> i64 {
    links.iter().map(|(_, bytes)| bytes).sum()
}

pub fn shown(links: &[Link]) -> String {
    let shown: Vec<String> = links.iter().map(|(name, bytes)| format!("{name} {bytes}")).collect();
    shown.join(", ")
}

//! The stack of one function, by every way through it.

use crate::code::Function;
use crate::machine::{Machine, Next};
use std::collections::BTreeMap;

/// Bytes below where the stack pointer was when the function began.
#[derive(Debug, Default, PartialEq)]
pub struct Need<'a> {
    pub own: i64,
    /// The functions that it calls, and how deep it is then.
    pub calls: Vec<(i64, &'a str)>,
}

pub fn of<'a>(f: &Function<'a>, machine: Machine) -> Result<Need<'a>, String> {
    let mut ways =
        Ways { f, machine, need: Need::default(), depths: BTreeMap::new(), ahead: vec![(0, 0)], switch: None };
    ways.follow().map_err(|why| format!("{}: {why}", f.name))?;
    Ok(ways.need)
}

struct Ways<'f, 'a> {
    f: &'f Function<'a>,
    machine: Machine,
    need: Need<'a>,
    /// How deep each instruction is that has been reached, by its index.
    depths: BTreeMap<usize, i64>,
    /// Instructions to go on from.
    ahead: Vec<(usize, i64)>,
    /// How deep the function is where it jumps by a table.
    switch: Option<i64>,
}

impl Ways<'_, '_> {
    fn follow(&mut self) -> Result<(), String> {
        loop {
            while let Some((index, depth)) = self.ahead.pop() {
                match self.depths.insert(index, depth) {
                    None => self.step(index, depth)?,
                    Some(before) if before == depth => {}
                    Some(before) => return Err(format!("{:x}: {before} and {depth} bytes", self.f.code[index].at)),
                }
            }
            let code = self.f.code.iter().enumerate();
            let missed =
                code.filter(|(_, i)| !self.machine.is_padding(i)).find(|(index, _)| !self.depths.contains_key(index));
            match (missed, self.switch) {
                (None, _) => return Ok(()),
                (Some((index, _)), Some(depth)) => self.ahead.push((index, depth)), // a place out of the table
                (Some((_, i)), None) => return Err(format!("{:x}: no way leads here", i.at)),
            }
        }
    }

    fn step(&mut self, index: usize, depth: i64) -> Result<(), String> {
        let i = self.f.code.get(index).ok_or("it runs on past its end")?;
        let effect = self.machine.effect(i)?;
        let after = depth + effect.down;
        self.need.own = self.need.own.max(after).max(depth + effect.below);
        match (effect.next, i.symbol) {
            (Next::Call, Some(symbol)) => self.need.calls.push((after + self.machine.return_address(), symbol)),
            (Next::Branch | Next::Jump, Some(symbol)) => self.need.calls.push((after, symbol)),
            (Next::Branch | Next::Jump, None) => self.ahead.push((self.index(i.target()?)?, after)),
            (Next::Switch, _) if self.switch.is_some_and(|depth| depth != after) => return Err(i.strange()),
            (Next::Switch, _) => self.switch = Some(after),
            _ => {}
        }
        if matches!(effect.next, Next::Following | Next::Call | Next::Branch) {
            self.ahead.push((index + 1, after));
        }
        Ok(())
    }

    fn index(&self, at: u64) -> Result<usize, String> {
        self.f.code.iter().position(|i| i.at == at).ok_or(format!("{at:x}: no instruction begins here"))
    }
}

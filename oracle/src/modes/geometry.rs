//! The geometry step. A case is the scope's input records; an answer is a line: the number, and after 0 the 21
//! fields of the geometry in the Rust's order, features as bits and the label in hexadecimal digits.

use std::io;
use std::panic::catch_unwind;

use mkfs_xfs::geometry::{Features, Geometry};

use super::{Mode, Out, Told};
use crate::model::{self, Sizing};
use crate::numbers::{number_of, UNNUMBERED};
use crate::port::{self, Asked, Reply};
use crate::random::Random;
use crate::request::{Request, MALFORMED};
use crate::wishes;

pub struct Geometries;

/// agcount is not block count divided by agsize, rounded up.
const GROUPS_MISS: u32 = 24;

/// The geometry that the Rust gives, or the number of a refusal, with what it is counted under. Roomy sizing is the model's.
pub fn step(q: &Request) -> (Told, Option<Geometry>) {
    if q.sizing() == Sizing::Roomy {
        let answer = model::step(q, Sizing::Roomy);
        return (Told::apart("roomy", answer.as_ref().err().copied().unwrap_or(0)), answer.ok());
    }
    let params = q.params();
    match catch_unwind(|| Geometry::compute(&params, q.device, q.logical, q.physical)) {
        Ok(Ok(g)) if g.agcount != g.dblocks.div_ceil(g.agsize) => (Told::apart("", GROUPS_MISS), None),
        Ok(Ok(g)) => (Told::asked("", 0), Some(g)),
        Ok(Err(e)) => (Told::asked("", number_of(&e)), None),
        Err(_) => (Told::asked("panic", UNNUMBERED), None),
    }
}

/// The features as the bits of the scope's option.
pub fn feature_bits(f: &Features) -> u64 {
    let on = [f.finobt, f.rmapbt, f.reflink, f.inobtcount, f.bigtime, f.nrext64, f.sparse];
    on.iter().enumerate().map(|(i, &b)| u64::from(b) << i).sum()
}

/// Every field but the label, with its name.
pub fn fields(g: &Geometry) -> [(&'static str, u64); 20] {
    [
        ("blocksize", g.blocksize.into()),
        ("blocklog", g.blocklog.into()),
        ("sectsize", g.sectsize.into()),
        ("sectlog", g.sectlog.into()),
        ("lsectsize", g.lsectsize.into()),
        ("lsectlog", g.lsectlog.into()),
        ("inodesize", g.inodesize.into()),
        ("inodelog", g.inodelog.into()),
        ("inopblock", g.inopblock.into()),
        ("inopblog", g.inopblog.into()),
        ("dirblocklog", g.dirblocklog.into()),
        ("dblocks", g.dblocks),
        ("agsize", g.agsize),
        ("agcount", g.agcount),
        ("agblklog", g.agblklog.into()),
        ("imaxpct", g.imaxpct.into()),
        ("logblocks", g.logblocks),
        ("logagno", g.logagno),
        ("log_agbno", g.log_agbno),
        ("features", feature_bits(&g.features)),
    ]
}

/// An answer.
pub fn line(number: u32, answer: Option<&Geometry>) -> String {
    let mut line = number.to_string();
    if let Some(g) = answer {
        fields(g).iter().for_each(|(_, value)| line += &format!(" {value}"));
        line += " ";
        line += &super::hex(&g.label);
    }
    line + "\n"
}

impl Mode for Geometries {
    fn case(&self, r: &mut Random) -> Vec<u8> {
        let changes = r.below(4);
        wishes::request(r, changes).encode()
    }

    fn answer(&self, case: &[u8], out: Out) -> io::Result<Told> {
        let Some(q) = Request::parse(case) else {
            writeln!(out, "{MALFORMED}")?;
            return Ok(Told::apart("", MALFORMED));
        };
        let (told, answer) = step(&q);
        out.write_all(line(told.number, answer.as_ref()).as_bytes())?;
        Ok(told)
    }

    fn asked(&self, case: &[u8]) -> Option<Asked> {
        Some(Asked { program: port::PLANS, function: port::plan::GEOMETRY, params: Vec::new(), body: case.to_vec() })
    }

    fn replied(&self, _case: &[u8], reply: Reply) -> Vec<u8> {
        let mut line = reply.number.to_string();
        if reply.number == 0 {
            let numbers = reply.numbers();
            let (fields, features) = numbers.split_at_checked(19).unwrap_or_default();
            let bits: u64 = features.iter().take(7).enumerate().map(|(i, on)| on << i).sum();
            fields.iter().chain([&bits]).for_each(|value| line += &format!(" {value}"));
            line += " ";
            line += &super::hex(reply.bytes.get(26 * 8..).unwrap_or_default());
        }
        (line + "\n").into_bytes()
    }

    fn replayed_answer(&self, case: &[u8], _answer: &[u8]) -> Vec<u8> {
        match Request::parse(case).map(|q| step(&q)) {
            None => port::line(MALFORMED, 0, &[]),
            Some((told, answer)) => port::line(told.number, 0, &answer.as_ref().map_or(Vec::new(), port::geometry)),
        }
    }

    fn show_case(&self, case: &[u8]) -> String {
        format!("{} {:?}", super::hex(case), Request::parse(case))
    }

    fn show_answer(&self, answer: &[u8]) -> String {
        String::from_utf8_lossy(answer).into_owned()
    }
}

//! `fusegen` and `replay`: blocks made by several calls.

use crate::block::Block;
use crate::chain::Chain;
use crate::cursor::lines;
use crate::fusing::fuse;
use crate::price::PriceList;
use crate::programs::Fault;
use crate::refusal::Cause;
use crate::script::{read_width, Call, NoCall};
use crate::sheet;

const LONGEST_INPUT: usize = 4096;

pub fn fuse_gen(input: &[u8]) -> Vec<u8> {
    match generated(input) {
        Ok(block) => sheet::write(&block),
        Err(fault) => fault.to_string().into_bytes(),
    }
}

/// The block that a generator's input says.
pub fn generated(input: &[u8]) -> Result<Block, Fault> {
    if input.len() > LONGEST_INPUT {
        return Err(Cause::SheetTooLong.at(0).on(0));
    }
    let mut lines = lines(input).zip(1..);
    let (line, number) = lines.next().ok_or(Fault::missing(1))?;
    let width = read_width(line).map_err(|refusal| refusal.on(number))?;
    let mut block = Block::unfounded();
    let (line, number) = lines.next().ok_or(Fault::missing(2))?;
    let chain = Chain::read(line).map_err(|refusal| refusal.on(number))?;
    block
        .found(&chain, 0, u64::from(width))
        .map_err(|refusal| refusal.on(number))?;
    for ((line, number), code) in lines.zip(1..) {
        let fused =
            Chain::read(line).and_then(|chain| fuse(&mut block, &chain, code, PriceList::Count));
        fused.map_err(|refusal| refusal.on(number))?;
    }
    Ok(block)
}

pub fn replay(input: &[u8]) -> Vec<u8> {
    let mut block = Block::unfounded();
    let mut text = String::new();
    for line in lines(input) {
        let made = Call::read(line).and_then(|call| Ok(call.make(&mut block)?));
        text += &match made {
            Ok(None) => "ok\n".to_string(),
            Ok(Some(price)) => format!("ok price={price}\n"),
            Err(NoCall::Refused(refusal)) => {
                format!("fault={} place={}\n", refusal.cause.number(), refusal.place)
            }
            Err(NoCall::Unreadable) => "unreadable\n".to_string(),
        };
    }
    text += "sheet\n";
    let mut text = text.into_bytes();
    text.extend(sheet::write(&block));
    text
}

#[cfg(test)]
mod tests {
    fn text(bytes: Vec<u8>) -> String {
        String::from_utf8(bytes).expect("a text")
    }

    #[test]
    fn the_generator_of_the_formats() {
        let input = "width=16\nchain=0.0+0.2 1.0+1.3 0\nchain=0.0+0.1 1.0+0.4 0\n";
        let sheet = "adders=2\nwidth=16\n1L=0.0\n1R=0.1 0.2\n2L=1.0\n2R=0.4 1.3\nout=2.0\n\
                     s00=0+1 0+1 0\ns01=0+0 0+0 0\n";
        assert_eq!(text(super::fuse_gen(input.as_bytes())), sheet);
        let input = "width=16\nchain=0.0+0.2 0\nchain=0.0+0.1 1.0+0.4 0\n";
        assert_eq!(
            text(super::fuse_gen(input.as_bytes())),
            "fault=22\nline=3\nplace=0\n"
        );
    }

    #[test]
    fn the_script_of_the_formats() {
        let input =
            "found 0 16 chain=0.1+0.2 0\nfuse 1 count chain=0.0+0.2 1\nmove 1 1 2\nretire 5\n";
        let output =
            "ok\nok price=2\nfault=13 place=0\nfault=23 place=0\nsheet\nadders=1\nwidth=16\n\
                      1L=0.0 0.1\n1R=0.2\nout=1.0 1.1\ns00=1+0 0\ns01=0+0 1\n";
        assert_eq!(text(super::replay(input.as_bytes())), output);
    }

    #[test]
    fn the_empty_script() {
        assert_eq!(text(super::replay(b"")), "sheet\nadders=0\nwidth=1\nout=\n");
    }
}

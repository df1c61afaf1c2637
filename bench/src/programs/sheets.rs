//! `readsheet`, `price` and the host on a sheet: what a wiring sheet says.

use crate::block::Block;
use crate::depth::depth;
use crate::port::Port;
use crate::price::{self, AdderPart, Multiplexer, PriceList, UnitPrices};
use crate::programs::{host_codes, Fault};
use crate::refusal::{Cause, Refusal};
use crate::sheet;

pub fn read_sheet(input: &[u8]) -> Vec<u8> {
    let text = match sheet::read(input) {
        Ok(block) => constants_and_depth(&block),
        Err(refusal) => {
            let head = format!("fault={}\nline={}\n", refusal.cause.number(), refusal.line);
            let row = |row: Refusal| format!("cause={}\nplace={}\n", row.cause.number(), row.place);
            head + &refusal.row.map_or(String::new(), row)
        }
    };
    text.into_bytes()
}

fn constants_and_depth(block: &Block) -> String {
    let constants = block
        .live_codes()
        .map(|(code, row)| format!("s{code:02}={}\n", row.constant()));
    constants
        .chain([format!("depth={}\n", depth(block))])
        .collect()
}

/// Each code that the host asks for, or at each why the sheet is none.
pub fn host(input: &[u8]) -> Vec<u8> {
    let block = sheet::read(input).map_err(|refusal| refusal.cause);
    let answer = |code| {
        let block = block.as_ref().map_err(|&cause| cause)?;
        if code > 15 {
            return Err(Cause::CodeAboveFifteen);
        }
        let row = block.row(code).ok_or(Cause::CodeIdle)?;
        Ok(row.constant())
    };
    let line = |code| match answer(code) {
        Ok(constant) => format!("s{code:02} constant={constant}\n"),
        Err(cause) => format!("s{code:02} fault={}\n", cause.number()),
    };
    host_codes().map(line).collect::<String>().into_bytes()
}

pub fn price(input: &[u8]) -> Vec<u8> {
    let text = priced(input).unwrap_or_else(|fault| fault.to_string());
    text.into_bytes()
}

fn priced(input: &[u8]) -> Result<String, Fault> {
    let mut parts = input.splitn(2, |&byte| byte == b'\n');
    let units =
        UnitPrices::read(parts.next().unwrap_or_default()).map_err(|refusal| refusal.on(1))?;
    let sheet = parts.next().ok_or(Cause::SheetForm.at(1).on(2))?;
    let block = sheet::read(sheet).map_err(|refusal| match refusal.cause {
        Cause::SheetTooLong => refusal.cause.at(0).on(0),
        cause => cause.at(refusal.line).on(refusal.line + 1),
    })?;
    Ok(report(&block, units))
}

fn report(block: &Block, units: UnitPrices) -> String {
    let mut text = String::new();
    for port in Port::of(block.adders()) {
        if let Port::Left(number) = port {
            let part = AdderPart::at(block, number);
            let part = part.map_or("-".to_string(), |part| {
                format!("{} {}", part.kind, part.width)
            });
            text += &format!("a{number}={part}\n");
        }
        let part = Multiplexer::at(block, port);
        let part = part.map_or("-".to_string(), |part| {
            format!("{} {}", part.inputs, part.width)
        });
        text += &format!("{port}={part}\n");
    }
    text += &format!("count={}\n", price::price(block, PriceList::Count));
    text += &format!("price={}\n", price::price(block, PriceList::PerBit(units)));
    text
}

#[cfg(test)]
mod tests {
    const SHEET: &str = "adders=2\nwidth=16\n1L=0.0\n1R=0.2 0.1\n2L=1.0\n2R=1.3 0.4\nout=2.0\n\
                         s00=0+0 0+0 0\ns01=0+1 0+1 0\n";

    fn price(input: &str) -> String {
        String::from_utf8(super::price(input.as_bytes())).expect("a text")
    }

    #[test]
    fn the_price_of_the_formats() {
        let expected = "a1=adds 19\n1L=1 16\n1R=2 18\na2=adds 22\n2L=1 19\n2R=2 22\nout=1 22\ncount=2\nprice=244\n";
        assert_eq!(price(&format!("units=4 5 6 2\n{SHEET}")), expected);
    }

    #[test]
    fn a_sheet_is_told_one_line_further_down() {
        let repeated = SHEET.replace("1R=0.2 0.1", "1R=0.2 0.2");
        assert_eq!(
            price(&format!("units=4 5 6 2\n{repeated}")),
            "fault=43\nline=5\nplace=4\n"
        );
        assert_eq!(price("units=4 5 6 2"), "fault=41\nline=2\nplace=1\n");
    }

    #[test]
    fn constants_and_depth_of_the_formats() {
        assert_eq!(
            super::read_sheet(SHEET.as_bytes()),
            b"s00=45\ns01=19\ndepth=4\n"
        );
    }
}

//! What `sm_tool` writes for the bytes on standard input, with its status.
//!
//!     judge audit|evidence|receipts|decide|show [--json]
//!     judge draw|plan
//!     judge accuse|receipt GENERAL
use std::io::{Error, Read, Write};
use std::process::ExitCode;
use vamuretu::{
    accuse, audit, audit_json, decide, decide_json, draw, evidence, evidence_json, plan, receipt, receipts,
};
use vamuretu::{receipts_json, show, show_json, Answer, Fault};

/// The status and the text of an answer.
fn said(answer: Answer) -> (u8, Vec<u8>) {
    (u8::from(answer.is_no()), answer.text().into())
}

/// The status and the bytes of a job on a general. If there are none, that is a no, and so is a general that is not there.
fn made(bytes: Result<Option<Vec<u8>>, Fault>) -> Result<(u8, Vec<u8>), Fault> {
    match bytes {
        Err(Fault::Nobody) => Ok((1, vec![])),
        found => Ok(found?.map_or((1, vec![]), |bytes| (0, bytes))),
    }
}

/// The status of receipts: a no unless they show one value.
fn status_of(input: &[u8]) -> Result<u8, Fault> {
    Ok(u8::from(receipts(None, input)?.order().is_none()))
}

/// The status and the text of a job.
fn answer(words: &[&str], input: &[u8]) -> Result<(u8, Vec<u8>), Fault> {
    Ok(match words {
        ["audit"] => said(audit(input)?),
        ["show"] => said(show(input)?),
        ["plan"] => said(plan(input)?),
        ["show", "--json"] => said(show_json(&[], input)?),
        ["audit", "--json"] => (u8::from(audit(input)?.is_no()), audit_json(&[], input)?.into_bytes()),
        ["evidence", "--json"] => (u8::from(!evidence(input)?), evidence_json(None, input)?.into_bytes()),
        ["decide", "--json"] => (0, decide_json(input)?.into_bytes()),
        ["draw"] => (0, draw(input)?.into_bytes()),
        ["decide"] => (0, decide(input)?.into_bytes()),
        ["evidence"] if evidence(input)? => (0, b"evidence holds\n".to_vec()),
        ["evidence"] => (1, b"evidence fails\n".to_vec()),
        ["receipts"] => (status_of(input)?, receipts(None, input)?.to_string().into_bytes()),
        ["receipts", "--json"] => (status_of(input)?, receipts_json(None, input)?.into_bytes()),
        ["accuse", general] => made(accuse(general.parse().map_err(|_| Fault::Misuse)?, input))?,
        ["receipt", general] => made(receipt(None, general.parse().map_err(|_| Fault::Misuse)?, input))?,
        _ => return Err(Fault::Misuse),
    })
}

fn main() -> Result<ExitCode, Error> {
    let words: Vec<String> = std::env::args().skip(1).collect();
    let mut input = Vec::new();
    std::io::stdin().lock().read_to_end(&mut input)?;
    let answered = answer(&words.iter().map(String::as_str).collect::<Vec<_>>(), &input);
    let status = match &answered {
        Ok((status, text)) => {
            std::io::stdout().lock().write_all(text)?;
            *status
        }
        Err(Fault::Input(_) | Fault::OtherRun) => 3,
        Err(Fault::Memory) => 4,
        Err(_) => 2,
    };
    if let Err(fault) = answered {
        eprintln!("{fault}");
    }
    Ok(ExitCode::from(status))
}

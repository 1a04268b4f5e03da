//! What was judged of an input once, and all that is told of it.

use crate::jobs::{accuse_of, audited, draw_of, options, show, text_of, Expected, RunId, CAMPAIGN, JSON};
use crate::states::SystemId;
use crate::verdicts::Judgement;
use crate::{raw, Bundle, Fault, Header, Numbers, Root, Version};

/// A bundle or a campaign that was judged, by one whole audit.
///
/// It keeps the verdict in its parts and as JSON, and the input. A picture, evidence and another list each take a further whole
/// audit ([`audits`](crate::audits) counts them).
#[derive(Debug, Clone, PartialEq, Eq)]
pub struct Judged {
    of: Pinned,
    input: Vec<u8>,
    json: String,
    judgement: Judgement,
}

/// What was expected.
#[derive(Debug, Clone, PartialEq, Eq)]
enum Pinned {
    Runs(Vec<RunId>),
    Admitted(Vec<u8>, Option<SystemId>),
}

impl Pinned {
    fn by(expected: Expected) -> Pinned {
        match expected {
            Expected::Runs(runs) => Pinned::Runs(runs.to_vec()),
            Expected::Admitted { admission, system } => Pinned::Admitted(admission.to_vec(), system.copied()),
        }
    }

    fn expected(&self) -> Expected<'_> {
        match self {
            Pinned::Runs(runs) => Expected::Runs(runs),
            Pinned::Admitted(admission, system) => Expected::Admitted { admission, system: system.as_ref() },
        }
    }
}

impl Judged {
    /// Judges a bundle or a campaign of the runs that are expected. Faults are those of [`audit_of`](crate::audit_of).
    pub fn of<'a>(expected: impl Into<Expected<'a>>, input: &[u8]) -> Result<Judged, Fault> {
        let expected = expected.into();
        let (_, mut held) = audited(raw::sm_audit, &options(expected, false, JSON)?, input)?;
        let judgement = Judgement::of(&held.facts(), input.starts_with(CAMPAIGN)).ok_or(Fault::Misuse)?;
        Ok(Judged { of: Pinned::by(expected), input: input.to_vec(), json: text_of(held.text()), judgement })
    }

    /// The verdict in its parts.
    pub fn judgement(&self) -> &Judgement {
        &self.judgement
    }

    /// The verdict as `sm_tool audit` writes it.
    pub fn text(&self) -> Result<String, Fault> {
        Ok(self.judgement.to_string())
    }

    /// The verdict as one line with a JSON object, as `sm_tool audit --json` writes it.
    pub fn json(&self) -> Result<String, Fault> {
        Ok(self.json.clone())
    }

    /// The picture of what was judged, as [`draw`](crate::draw).
    pub fn picture(&self) -> Result<String, Fault> {
        draw_of(self.of.expected(), &self.input)
    }

    /// The evidence against a node (general), as [`accuse`](crate::accuse).
    pub fn evidence(&self, general: u32) -> Result<Option<Vec<u8>>, Fault> {
        accuse_of(self.of.expected(), general, &self.input)
    }

    /// The same bundle under another list of nodes (generals) that are assumed faulty. [`Fault::Misuse`] for a general above 15,
    /// and for a campaign.
    pub fn held(&self, faulty: &[u32]) -> Result<Judged, Fault> {
        let (header, logs) = parts(&self.input)?;
        let bundle = Bundle::parted(&header, faulty, &logs)?;
        Judged::of(self.of.expected(), bundle.as_bytes())
    }
}

/// A number of a line.
fn number<T: std::str::FromStr>(word: &str) -> Result<T, Fault> {
    word.parse().map_err(|_| Fault::Misuse)
}

/// The root of 64 hexadecimal digits.
fn root(digits: &str) -> Result<Root, Fault> {
    let mut root = [0; 32];
    for (place, byte) in root.iter_mut().enumerate() {
        let pair = digits.get(2 * place..2 * place + 2).ok_or(Fault::Misuse)?;
        *byte = u8::from_str_radix(pair, 16).map_err(|_| Fault::Misuse)?;
    }
    Ok(Root(root))
}

/// The header and the logs of a bundle, as [`show`] tells them.
fn parts(bundle: &[u8]) -> Result<(Header, Vec<(u32, &[u8])>), Fault> {
    let shown = show(bundle)?;
    let mut numbers =
        Numbers { version: Version::One, slot: 0, generals: 0, traitors: 0, diameter: 0, orders: 0, choice: 0 };
    let (mut edges, mut roots, mut logs) = (vec![], vec![], vec![]);
    for line in shown.text().lines() {
        match line.split(' ').collect::<Vec<_>>()[..] {
            ["format", "bundle", "version", version, "slot", slot] => {
                numbers.version = if version == "1" { Version::One } else { Version::Two };
                numbers.slot = number(slot)?;
            }
            ["generals", count] => numbers.generals = number(count)?,
            ["traitors", count] => numbers.traitors = number(count)?,
            ["diameter", length] => numbers.diameter = number(length)?,
            ["orders", count] => numbers.orders = number(count)?,
            ["choice", choice] => numbers.choice = number(choice)?,
            ["edge", one, other] => edges.push((number(one)?, number(other)?)),
            ["root", _, digits] => roots.push(root(digits)?),
            ["log", "of", general, "byte", byte, "length", length, ..] => {
                let (byte, length): (usize, usize) = (number(byte)?, number(length)?);
                logs.push((number(general)?, bundle.get(byte..byte + length).ok_or(Fault::Misuse)?));
            }
            ["format", ..] => return Err(Fault::Misuse),
            _ => {}
        }
    }
    Ok((Header::new(&numbers, &edges, &roots)?, logs))
}

#[cfg(test)]
mod tests {
    use super::*;
    use crate::{accuse, audit, audit_json, audits, draw, judge, Said};

    const SPLIT: &[u8] = include_bytes!("../../../examples/split.bundle");
    const DISPUTED: &[u8] = include_bytes!("../../../examples/disputed.bundle");
    const SERIES: &[u8] = include_bytes!("../../../examples/series.bundles");

    #[test]
    fn all_that_is_told_of_one_audit() {
        for input in [SPLIT, DISPUTED, SERIES] {
            let judged = Judged::of(&[], input).expect("a verdict");
            assert_eq!(
                (judged.text(), judged.json()),
                (Ok(audit(input).expect("a verdict").text().into()), audit_json(&[], input))
            );
            assert_eq!((judged.judgement(), judged.picture()), (&judge(&[], input).expect("a verdict"), draw(input)));
            for general in 0..4 {
                assert_eq!(judged.evidence(general), accuse(general, input));
            }
        }
        assert_eq!(Judged::of(&[[0; 32]], SPLIT), Err(Fault::OtherRun));
        assert_eq!(Judged::of(&[], b""), Err(Fault::Input("fault B1".into())));
    }

    #[test]
    fn another_list() {
        let disputed = Judged::of(&[], DISPUTED).expect("a verdict");
        let held = disputed.held(&[0]).expect("a verdict");
        let [verdict] = held.judgement().runs() else { panic!("one run") };
        assert_eq!((&verdict.said, &verdict.faulty[..]), (&Said::Agreed(1), &[0][..]));
        assert_eq!(held.held(&[]).expect("a verdict"), disputed);
        let split = Judged::of(&[], SPLIT).expect("a verdict");
        assert_eq!(split.held(&[0]).expect("a verdict"), split);
        assert!(split.held(&[]).expect("a verdict").judgement().is_no());
        assert_eq!(split.held(&[16]), Err(Fault::Misuse));
        assert_eq!(Judged::of(&[], SERIES).expect("a verdict").held(&[0]), Err(Fault::Misuse));
        assert!(audits() >= 5);
    }
}

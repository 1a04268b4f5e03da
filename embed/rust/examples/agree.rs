//! Four nodes (generals) in one process agree on a value (order), and their logs are judged: it prints the verdict.
use std::{fs::File, io::Read, process::ExitCode};
use vamuretu::{audit, Bundle, Header, Keys, Node, Numbers, Seed, Version};

fn main() -> Result<ExitCode, Box<dyn std::error::Error>> {
    let mut seeds = [(); 4].map(|()| Seed([0; 32])); // each serves one run, so put on the disk that it is used
    seeds.iter_mut().try_for_each(|seed| File::open("/dev/urandom")?.read_exact(&mut seed.0))?;
    let mut keys = seeds.iter().map(|seed| Keys::new(seed, Version::One)).collect::<Result<Vec<_>, _>>()?;
    let roots: Vec<_> = keys.iter().map(Keys::root).collect();
    let numbers =
        Numbers { version: Version::One, slot: 0, generals: 4, traitors: 1, diameter: 1, orders: 3, choice: 0 };
    let header = Header::new(&numbers, &[(0, 1), (0, 2), (0, 3), (1, 2), (1, 3), (2, 3)], &roots)?;
    let make = |(g, keys): (u32, &mut Keys)| Node::of_keys(&header, g, keys, (g == 0).then_some(2));
    let mut nodes = (0..).zip(&mut keys).map(make).collect::<Result<Vec<_>, _>>()?;
    for _ in 0..header.rounds() {
        nodes.iter_mut().try_for_each(Node::begin_round)?;
        for (from, to) in (0..4).flat_map(|from| header.neighbours(from).map(move |to| (from, to))) {
            let frame = nodes[from as usize].send(to)?; // here stands your transport
            nodes[to as usize].hear(from, &frame)?;
        }
        nodes.iter_mut().try_for_each(Node::end_round)?;
    }
    nodes.iter_mut().try_for_each(Node::finish)?;
    let logs = nodes.iter_mut().map(Node::log).collect::<Result<Vec<_>, _>>()?;
    let shown: Vec<_> = (0..).zip(logs.iter().map(Vec::as_slice)).collect();
    let verdict = audit(Bundle::new(&header, &[], &shown)?.as_bytes())?;
    print!("{}", verdict.text());
    Ok(ExitCode::from(u8::from(verdict.is_no())))
}

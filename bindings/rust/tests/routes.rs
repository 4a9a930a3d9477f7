//! Random calls of a route table beside a list of its routes, each of which is looked at; and what networks are.
mod common;

use common::Random;
use std::cell::Cell;
use std::collections::BTreeMap;
use std::net::{IpAddr, Ipv4Addr, Ipv6Addr};
use std::panic::{catch_unwind, AssertUnwindSafe};
use verified_art::{BadNetwork, Change, Network, RouteTable};

fn network(text: &str) -> Network {
    text.parse().unwrap()
}

/// An address of few bytes that often are the same.
fn some_address(random: &mut Random) -> IpAddr {
    const BYTES: [u8; 5] = [0, 1, 10, 128, 255];
    let mut octets = [BYTES[random.below(2) as usize * 4]; 16];
    let four = random.coin();
    for _ in 0..random.below(6) {
        octets[random.below(if four { 4 } else { 16 }) as usize] = BYTES[random.below(5) as usize];
    }
    if four {
        IpAddr::from([octets[0], octets[1], octets[2], octets[3]])
    } else {
        IpAddr::from(octets)
    }
}

fn some_network(random: &mut Random, model: &BTreeMap<Network, String>) -> Network {
    if !model.is_empty() && random.below(4) == 0 {
        return *model.keys().nth(random.below(model.len() as u64) as usize).unwrap();
    }
    let address = some_address(random);
    Network::truncated(address, random.below(if address.is_ipv4() { 33 } else { 129 }) as u8).unwrap()
}

/// Whether one network is in another, by the text of its bits.
fn is_in(inner: &Network, outer: &Network) -> bool {
    let bits = |network: &Network| match network.address() {
        IpAddr::V4(ip) => format!("4{:032b}", ip.to_bits()),
        IpAddr::V6(ip) => format!("6{:0128b}", ip.to_bits()),
    };
    let count = 1 + usize::from(outer.length());
    outer.length() <= inner.length() && bits(inner)[..count] == bits(outer)[..count]
}

#[test]
fn a_table_does_what_a_scan_does() {
    let mut random = Random(20261130);
    let mut table = RouteTable::<String>::new();
    let mut model = BTreeMap::<Network, String>::new();
    for _ in 0..100_000 {
        let at = some_network(&mut random, &model);
        match random.below(20) {
            0..=3 => {
                let value = random.next().to_string();
                assert_eq!(table.insert(at, value.clone()), model.insert(at, value));
            }
            4 => {
                assert_eq!(table.get(at), model.get(&at));
                assert_eq!(table.contains_key(at), model.contains_key(&at));
            }
            5 => {
                if let Some(value) = table.get_mut(at) {
                    value.push('!');
                    model.get_mut(&at).unwrap().push('!');
                }
            }
            6..=8 => assert_eq!(table.remove(at), model.remove(&at)),
            9..=10 => {
                let address = some_address(&mut random);
                let mut around: Vec<_> =
                    model.iter().filter(|(it, _)| it.contains(address)).map(|(it, value)| (*it, value)).collect();
                around.sort_by_key(|(it, _)| it.length());
                assert_eq!(table.get_lpm(address.into()), around.last().copied());
                assert_eq!(table.get_lpm_prefix(address.into()), around.last().map(|(it, _)| *it));
                assert_eq!(table.get_spm(address.into()), around.first().copied());
                assert!(table.cover(address.into()).eq(around));
            }
            11 => {
                let mut around: Vec<_> =
                    model.iter().filter(|(it, _)| is_in(&at, it)).map(|(it, value)| (*it, value)).collect();
                around.sort_by_key(|(it, _)| it.length());
                assert_eq!(table.get_lpm(at), around.last().copied());
                assert!(table.cover(at).eq(around));
            }
            12 => {
                let inside = model.iter().filter(|(it, _)| is_in(it, &at)).map(|(it, value)| (*it, value));
                assert!(table.children(at).eq(inside));
            }
            13 => {
                let mut around: Vec<_> = model.iter().filter(|(it, _)| is_in(&at, it) && **it != at).collect();
                around.sort_by_key(|(it, _)| it.length());
                assert_eq!(table.parent(at), around.last().map(|(it, value)| (**it, *value)));
            }
            14 => {
                let parts: Vec<_> = model.keys().filter(|it| is_in(it, &at) && **it != at).copied().collect();
                let is_direct = |part: &Network| parts.iter().all(|it| it == part || !is_in(part, it));
                let direct = model.iter().filter(|(it, _)| parts.contains(it) && is_direct(it));
                assert!(table.direct_children(at).eq(direct.map(|(it, value)| (*it, value))));
            }
            15 if random.below(10) == 0 => {
                let before = model.len();
                model.retain(|it, _| !is_in(it, &at));
                assert_eq!(table.remove_covered(at), before - model.len());
            }
            16 => {
                let ours = table.entry(at).and_modify(|value| value.push('&')).or_insert_with(|| "new".to_string());
                let theirs = model.entry(at).and_modify(|value| value.push('&')).or_insert_with(|| "new".to_string());
                assert_eq!(ours, theirs);
            }
            17 => {
                let inside: Vec<_> =
                    model.iter().filter(|(it, _)| is_in(it, &at)).map(|(it, value)| (*it, value)).collect();
                assert!(table.children(at).rev().eq(inside.iter().rev().copied()));
                let (mut both, mut left) = (table.children(at), inside.as_slice());
                while random.below(20) > 0 {
                    let (ours, theirs) = if random.coin() {
                        (both.next(), left.split_first().map(|(it, rest)| (it, left = rest)))
                    } else {
                        (both.next_back(), left.split_last().map(|(it, rest)| (it, left = rest)))
                    };
                    assert_eq!(ours, theirs.map(|(it, ())| *it));
                }
            }
            _ => match random.below(200) {
                0 => {
                    table.clear();
                    model.clear();
                }
                1 => table.compact(),
                2 => table.reserve(random.below(100) as usize),
                3 => {
                    let kept = |network: &Network, value: &mut String| {
                        value.push('k');
                        network.length() % 3 > 0
                    };
                    table.retain(kept);
                    model.retain(kept);
                }
                4 => {
                    assert!(table.iter().rev().eq(model.iter().rev().map(|(it, value)| (*it, value))));
                    table.iter_mut().rev().zip(model.iter_mut().rev()).for_each(|((_, ours), (_, theirs))| {
                        ours.push('<');
                        theirs.push('<');
                    });
                }
                5 => table.iter_mut().zip(model.iter_mut()).for_each(|((one, ours), (other, theirs))| {
                    assert_eq!((one, &ours), (*other, &theirs));
                    ours.push('?');
                    theirs.push('?');
                }),
                _ => (),
            },
        }
        assert_eq!(table.len(), model.len());
    }
    assert!(table.iter().eq(model.iter().map(|(it, value)| (*it, value))));
    assert!(table.keys().eq(model.keys().copied()) && table.values().eq(model.values()));
    assert_eq!(table.clone(), table);
    table.values_mut().for_each(|value| value.push('$'));
    model.values_mut().for_each(|value| value.push('$'));
    assert!(table.clone().into_values().eq(model.values().cloned()));
    let (mut routes, mut rest) = (table.into_iter(), model.into_iter());
    while random.below(500) > 0 {
        assert_eq!(routes.len(), rest.len());
        if random.coin() {
            assert_eq!(routes.next(), rest.next());
        } else {
            assert_eq!(routes.next_back(), rest.next_back());
        }
    }
    assert!(routes.rev().eq(rest.rev()));
}

/// All networks of 10.0.0.0/29, which is one of them, and of its addresses.
fn small_networks() -> Vec<Network> {
    let of_length =
        |length: u8| (0..8u8).step_by(1 << (32 - length)).map(move |at| Network::new([10, 0, 0, at], length).unwrap());
    (29..=32).flat_map(of_length).collect()
}

#[test]
fn free_networks_are_those_that_a_scan_finds() {
    let (mut random, all) = (Random(29), small_networks());
    for _ in 0..2000 {
        let mut table = RouteTable::new();
        for _ in 0..random.below(5) {
            table.insert(all[random.below(all.len() as u64) as usize], ());
        }
        for network in &all {
            for length in 28..=33 {
                let is_free = |it: &Network| {
                    it.length() == length
                        && is_in(it, network)
                        && !table.keys().any(|at| is_in(it, &at) || is_in(&at, it))
                };
                let mut free: Vec<_> = all.iter().filter(|it| is_free(it)).copied().collect();
                free.sort();
                assert!(table.free(*network, length).eq(free));
            }
        }
    }
}

#[test]
fn free_networks_of_many_calls() {
    let mut table: RouteTable<u8> = RouteTable::new();
    let hosts = |free: &mut dyn Iterator<Item = Network>| free.map(|it| it.address()).collect::<Vec<_>>();
    let all: Vec<IpAddr> = (0..=255u8).map(|at| [10, 0, 0, at].into()).collect();
    assert_eq!(hosts(&mut table.free(network("10.0.0.0/24"), 32)), all);
    for taken in [0, 31, 32, 63, 64, 255u8] {
        table.insert([10, 0, 0, taken].into(), taken);
    }
    let left: Vec<_> = all
        .into_iter()
        .enumerate()
        .filter(|(at, _)| ![0, 31, 32, 63, 64, 255].contains(at))
        .map(|(_, it)| it)
        .collect();
    assert_eq!(hosts(&mut table.free(network("10.0.0.0/24"), 32)), left);
    assert_eq!(table.free(network("10.0.0.0/24"), 32).clone().count(), 250);
    assert!(table
        .free(network("::/0"), 128)
        .take(100)
        .eq((0..100u128).map(|at| Network::from(Ipv6Addr::from_bits(at)))));
    assert_eq!(table.free(network("ffff:ffff:ffff:ffff:ffff:ffff:ffff:ff00/120"), 128).count(), 256);
    assert_eq!(table.free(network("255.255.255.0/24"), 32).last(), Some(Ipv4Addr::BROADCAST.into()));
    assert_eq!(
        (table.free(network("10.0.0.0/8"), 7).next(), table.free(network("10.0.0.0/8"), 33).next()),
        (None, None)
    );
}

#[test]
fn differences_are_those_of_two_maps() {
    let mut random = Random(17);
    for _ in 0..3000 {
        let mut old = BTreeMap::<Network, String>::new();
        for _ in 0..random.below(20) {
            old.insert(some_network(&mut random, &old), random.below(3).to_string());
        }
        let mut new = old.clone();
        for _ in 0..random.below(12) {
            let at = some_network(&mut random, &new);
            if random.coin() {
                new.remove(&at);
            } else {
                new.insert(at, random.below(3).to_string());
            }
        }
        let of = |model: &BTreeMap<Network, String>| model.clone().into_iter().collect::<RouteTable<_>>();
        let mut changes = Vec::new();
        let mut networks: Vec<_> = old.keys().chain(new.keys()).copied().collect();
        networks.sort();
        networks.dedup();
        for at in networks {
            changes.extend(match (old.get(&at), new.get(&at)) {
                (Some(before), None) => Some(Change::Remove(at, before)),
                (None, Some(after)) => Some(Change::Insert(at, after)),
                (Some(before), Some(after)) if before != after => Some(Change::Replace(at, after)),
                _ => None,
            });
        }
        let (table, other) = (of(&old), of(&new));
        assert!(table.difference(&other).eq(changes));
        assert_eq!(table.difference(&table).next(), None);
        let mut made = table.clone();
        for change in table.difference(&other) {
            match change {
                Change::Insert(at, value) => assert_eq!(made.insert(at, value.clone()), None),
                Change::Remove(at, value) => assert_eq!(made.remove(at).as_ref(), Some(value)),
                Change::Replace(at, value) => assert!(made.insert(at, value.clone()).is_some()),
            }
        }
        assert_eq!(made, other);
    }
}

#[test]
fn nested_routes() {
    let texts = ["10.0.0.0/8", "10.1.0.0/16", "10.1.2.0/24", "10.2.0.0/16", "10.255.255.255", "::/0", "2001:db8::/32"];
    let mut table: RouteTable<usize> = texts.into_iter().enumerate().map(|(at, text)| (network(text), at)).collect();
    let direct =
        |table: &RouteTable<usize>, text| table.direct_children(network(text)).map(|(_, at)| *at).collect::<Vec<_>>();
    assert_eq!(direct(&table, "0.0.0.0/0"), [0]);
    assert_eq!(direct(&table, "10.0.0.0/8"), [1, 3, 4]);
    assert_eq!(direct(&table, "10.1.0.0/16"), [2]);
    assert_eq!(direct(&table, "10.255.255.255"), []);
    assert_eq!(direct(&table, "::/0"), [6]);
    assert_eq!(table.parent(network("10.1.2.0/24")), Some((network("10.1.0.0/16"), &1)));
    assert_eq!(table.parent(network("10.1.2.3")), Some((network("10.1.2.0/24"), &2)));
    assert_eq!(table.parent(network("10.0.0.0/8")), None);
    assert_eq!(table.parent(network("::/0")), None);
    assert_eq!(table.remove_covered(network("10.1.0.0/16")), 2);
    assert_eq!(table.remove_covered(network("10.1.0.0/16")), 0);
    assert_eq!(direct(&table, "10.0.0.0/8"), [3, 4]);
    assert_eq!(table.remove_covered(network("0.0.0.0/0")), 3);
    assert_eq!((table.len(), table.remove_covered(network("::/0")), table.len()), (2, 2, 0));
}

#[test]
fn aggregated_tables_match_as_before() {
    let mut random = Random(41);
    for _ in 0..2000 {
        let mut model = BTreeMap::<Network, String>::new();
        for _ in 0..random.below(40) {
            // Often the other half of a network that is there.
            let at = some_network(&mut random, &model);
            let length = at.length().saturating_sub(random.below(2) as u8);
            let at = Network::truncated(at.address(), length).unwrap();
            let half = Network::truncated(at.address(), at.length() + u8::from(at.length() < 32)).unwrap();
            model.insert(if random.coin() { at } else { half }, random.below(3).to_string());
        }
        let mut table: RouteTable<String> = model.iter().map(|(it, value)| (*it, value.clone())).collect();
        table.aggregate();
        assert!(table.len() <= model.len());
        for _ in 0..100 {
            let address = some_address(&mut random);
            let longest = model.iter().filter(|(it, _)| it.contains(address)).max_by_key(|(it, _)| it.length());
            assert_eq!(table.get_lpm(address.into()).map(|(_, value)| value), longest.map(|(_, value)| value));
        }
        for (it, value) in &table {
            assert_ne!(table.parent(it).map(|(_, outer)| outer), Some(value));
            if it.length() > 0 {
                let whole = Network::truncated(it.address(), it.length() - 1).unwrap();
                let same = table
                    .iter()
                    .filter(|(half, other)| half.length() == it.length() && is_in(half, &whole) && *other == value);
                assert_eq!(same.count(), 1);
            }
        }
    }
}

#[test]
fn networks_are_read_and_shown() {
    for text in ["0.0.0.0/0", "10.0.0.0/8", "255.255.255.255/32", "::/0", "2001:db8::/32", "::1/128"] {
        assert_eq!(network(text).to_string(), text);
    }
    assert_eq!(network("10.1.2.3"), Network::new([10, 1, 2, 3], 32).unwrap());
    assert_eq!(network("::1"), Ipv6Addr::LOCALHOST.into());
    for text in
        ["", "10.0.0.0/", "10.0.0/8", "10.0.0.0/+8", "10.0.0.0/8/8", "10.0.0.0/ 8", "10.0.0.0/0008", "x", "::/-1"]
    {
        assert_eq!(text.parse::<Network>(), Err(BadNetwork::NotANetwork), "{text}");
    }
    assert_eq!("10.0.0.0/33".parse::<Network>(), Err(BadNetwork::LengthTooGreat));
    assert_eq!("::/256".parse::<Network>(), Err(BadNetwork::LengthTooGreat));
    assert_eq!("10.0.0.1/8".parse::<Network>(), Err(BadNetwork::BitsBehindLength));
    assert_eq!(Network::truncated(Ipv4Addr::BROADCAST, 0), Ok(network("0.0.0.0/0")));
    assert_eq!(Network::new(Ipv6Addr::LOCALHOST, 129), Err(BadNetwork::LengthTooGreat));
}

#[test]
fn networks_are_made_of_what_is_there() {
    let mut table = RouteTable::new();
    table.insert("10.0.0.0/8".parse().unwrap(), 8);
    table.insert("10.1.0.0/16".try_into().unwrap(), 16);
    table.insert(Ipv4Addr::new(10, 1, 2, 3).into(), 32);
    assert_eq!(table.get_lpm("10.1.2.3".parse().unwrap()).unwrap().1, &32);
    assert_eq!(table.get_lpm([10, 1, 2, 4].into()).unwrap().1, &16);
    assert_eq!(table.get_lpm(IpAddr::from([10, 2, 0, 0]).into()), Some((network("10.0.0.0/8"), &8)));
    assert_eq!(
        table,
        RouteTable::from([(network("10.1.2.3"), 32), (network("10.1.0.0/16"), 16), (network("10.0.0.0/8"), 8)])
    );
    for address in [Ipv6Addr::LOCALHOST.into(), [0, 0, 0, 0, 0, 0, 0, 1u16].into(), Ipv6Addr::LOCALHOST.octets().into()]
    {
        assert_eq!((network("::1"), table.get_lpm(address)), (address, None));
    }
    assert_eq!(Network::try_from("10.0.0.1/8"), Err(BadNetwork::BitsBehindLength));
}

#[test]
fn the_families_never_match_each_other() {
    let mut table: RouteTable<u32> = [(network("0.0.0.0/0"), 4), (network("10.0.0.0/8"), 8)].into_iter().collect();
    let mapped = Ipv4Addr::new(10, 0, 0, 1).to_ipv6_mapped();
    assert_eq!(table.get_lpm(mapped.into()), None);
    table.insert(network("::/0"), 6);
    assert_eq!(table.get_lpm(mapped.into()), Some((network("::/0"), &6)));
    assert_eq!(table.get_lpm([10, 0, 0, 1].into()), Some((network("10.0.0.0/8"), &8)));
    assert_eq!(table.children(network("0.0.0.0/0")).count(), 2);
    *table.get_lpm_mut([11, 0, 0, 1].into()).unwrap().1 = 5;
    assert_eq!(format!("{table:?}"), "{0.0.0.0/0: 5, 10.0.0.0/8: 8, ::/0: 6}");
}

/// Counts its drops, and may panic in one.
struct Counted<'a>(&'a Cell<u32>, bool);

impl Drop for Counted<'_> {
    fn drop(&mut self) {
        self.0.set(self.0.get() + 1);
        if self.1 {
            panic!("a drop that panics");
        }
    }
}

#[test]
fn a_drop_that_panics_leaves_a_table_without_routes() {
    let drops = Cell::new(0);
    let mut table: RouteTable<Counted<'_>> =
        (0..100u8).map(|at| ([at, 0, 0, 0].into(), Counted(&drops, at == 70))).collect();
    assert!(catch_unwind(AssertUnwindSafe(|| table.clear())).is_err());
    assert_eq!((drops.get(), table.len(), table.iter().count()), (100, 0, 0));
    table.insert([1, 0, 0, 0].into(), Counted(&drops, false));
    drop(table);
    assert_eq!(drops.get(), 101);
}

#[test]
fn a_drop_that_panics_leaves_a_table_without_what_is_removed() {
    let drops = Cell::new(0);
    let mut table: RouteTable<Counted<'_>> =
        (0..100u8).map(|at| ([at, 0, 0, 0].into(), Counted(&drops, at == 10))).collect();
    assert!(catch_unwind(AssertUnwindSafe(|| table.remove_covered(network("0.0.0.0/2")))).is_err());
    assert_eq!((drops.get(), table.len(), table.iter().count()), (64, 36, 36));
    drop(table);
    assert_eq!(drops.get(), 100);
}

#[test]
fn each_value_is_dropped_once() {
    let drops = Cell::new(0);
    let mut table: RouteTable<Counted<'_>> =
        (0..100u8).map(|at| ([at, 0, 0, 0].into(), Counted(&drops, false))).collect();
    drop(table.insert([3, 0, 0, 0].into(), Counted(&drops, false)));
    drop(table.remove([4, 0, 0, 0].into()));
    assert_eq!((drops.get(), table.len()), (2, 99));
    table.clear();
    assert_eq!((drops.get(), table.len()), (101, 0));
    table.insert([5, 0, 0, 0].into(), Counted(&drops, false));
    drop(table);
    assert_eq!(drops.get(), 102);
}

#[test]
fn what_an_iterator_by_value_leaves_is_dropped_once() {
    let drops = Cell::new(0);
    let of_ten = || (0..10u8).map(|at| ([at, 0, 0, 0].into(), Counted(&drops, false))).collect::<RouteTable<_>>();
    drop(of_ten().into_iter());
    assert_eq!(drops.replace(0), 10);
    let mut routes = of_ten().into_iter();
    let (first, last) = (routes.next().unwrap(), routes.next_back().unwrap());
    assert_eq!((first.0, last.0, routes.len(), drops.get()), ([0, 0, 0, 0].into(), [9, 0, 0, 0].into(), 8, 0));
    drop(routes);
    assert_eq!(drops.get(), 8);
    drop((first, last));
    assert_eq!(drops.replace(0), 10);
    assert_eq!((of_ten().into_iter().count(), drops.get()), (10, 10));
}

#[test]
fn a_closure_that_panics_leaves_a_whole_table() {
    let drops = Cell::new(0);
    let mut table: RouteTable<Counted<'_>> =
        (0..100u8).map(|at| ([at, 0, 0, 0].into(), Counted(&drops, false))).collect();
    let keeps = |it: &Network, _: &mut Counted<'_>| it.length() == 32 && *it != [50, 0, 0, 0].into() && panic!("at 0");
    assert!(catch_unwind(AssertUnwindSafe(|| table.retain(keeps))).is_err());
    assert_eq!((table.len(), drops.get()), (100, 0));
    let mut calls = 0;
    let keeps = |_: &Network, _: &mut Counted<'_>| {
        calls += 1;
        assert!(calls <= 50, "at the last one but fifty");
        calls % 2 == 0
    };
    assert!(catch_unwind(AssertUnwindSafe(|| table.retain(keeps))).is_err());
    assert_eq!((table.len(), drops.get()), (75, 25));
    drop(table);
    assert_eq!(drops.get(), 100);
}

#[test]
fn entries_are_read_changed_and_removed() {
    use verified_art::route_entry::Entry;

    let (eight, nine) = (network("10.0.0.0/8"), network("10.0.0.0/9"));
    let mut table = RouteTable::from([(eight, "a".to_string())]);
    assert_eq!(format!("{:?}", table.entry(nine)), "Vacant(VacantEntry(Network { address: 10.0.0.0, length: 9 }))");
    let Entry::Occupied(mut entry) = table.entry(eight) else { panic!("there is a route") };
    entry.get_mut().push('b');
    assert_eq!((entry.key(), entry.get().as_str()), (&eight, "ab"));
    assert_eq!(entry.insert("c".to_string()), "ab");
    entry.into_mut().push('d');
    assert_eq!((*table.entry(eight).key(), *table.entry(nine).key()), (eight, nine));
    assert_eq!(table.entry(eight).or_default(), "cd");
    assert_eq!(table.entry(nine).or_default(), "");
    assert_eq!(table.entry(nine).or_insert_with_key(|it| it.to_string()), "");
    let Entry::Occupied(entry) = table.entry(eight) else { panic!("there is a route") };
    assert_eq!(entry.remove_entry(), (eight, "cd".to_string()));
    let Entry::Vacant(entry) = table.entry(eight) else { panic!("there is none") };
    assert_eq!((*entry.key(), entry.into_key()), (eight, eight));
    assert_eq!((table.len(), table.get_lpm(eight)), (1, None));
}

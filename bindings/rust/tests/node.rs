//! Nodes whose areas and messages are in memory.

use rr::{serve, Ack, Host, Node, Op, Refusal, Reply};
use std::collections::VecDeque;

#[derive(Default)]
struct Memory {
    areas: [Vec<u8>; 2],
    sent: VecDeque<(u8, Vec<u8>)>,
    acks: Vec<Ack>,
    writes: usize,
    fails_at: Option<usize>,
}

impl Host for Memory {
    fn write(&mut self, area: usize, at: u64, bytes: &[u8]) -> bool {
        self.writes += 1;
        let end = at as usize + bytes.len();
        let len = self.areas[area].len().max(end);
        self.areas[area].resize(len, 0);
        if self.fails_at == Some(self.writes) {
            // A torn write: its first half, and then others.
            let half = bytes.len() / 2;
            self.areas[area][at as usize..end].fill(0xEE);
            self.areas[area][at as usize..at as usize + half].copy_from_slice(&bytes[..half]);
            return false;
        }
        self.areas[area][at as usize..end].copy_from_slice(bytes);
        true
    }

    fn send(&mut self, to: u8, bytes: &[u8]) {
        self.sent.push_back((to, bytes.to_vec()));
    }

    fn answer(&mut self, ack: Ack) {
        self.acks.push(ack);
    }
}

fn opened(host: &mut Memory, nodes: u8, node: u8) -> Result<Node, Refusal> {
    let is_new = host.areas.iter().all(Vec::is_empty);
    let mut node = Node::open(nodes, node, &host.areas[0], &host.areas[1], is_new)?;
    serve(&mut node, host)?;
    Ok(node)
}

/// Carries messages until none is left.
fn carry(nodes: &mut [Node], hosts: &mut [Memory]) {
    for _ in 0..10_000 {
        let Some(from) = hosts.iter().position(|host| !host.sent.is_empty()) else { return };
        let (to, bytes) = hosts[from].sent.pop_front().unwrap();
        let to = usize::from(to);
        nodes[to].hear(&bytes).unwrap();
        serve(&mut nodes[to], &mut hosts[to]).unwrap();
    }
    panic!("messages without end");
}

#[test]
fn three_nodes_agree() {
    let mut hosts: Vec<Memory> = (0..3).map(|_| Memory::default()).collect();
    let mut nodes: Vec<Node> = hosts.iter_mut().enumerate().map(|(index, host)| opened(host, 3, index as u8).unwrap()).collect();
    for (seq, node) in [0, 1, 2, 0].into_iter().enumerate() {
        nodes[node].submit(node as u32, seq as u64, Op::Claim(b"lamp", b"blue")).unwrap();
        serve(&mut nodes[node], &mut hosts[node]).unwrap();
        carry(&mut nodes, &mut hosts);
    }
    for _ in 0..20 {
        for index in 0..3 {
            nodes[index].tick().unwrap();
            serve(&mut nodes[index], &mut hosts[index]).unwrap();
            carry(&mut nodes, &mut hosts);
        }
    }
    let claimed = hosts.iter().flat_map(|host| &host.acks).filter(|ack| ack.reply == Reply::Claimed).count();
    assert_eq!(claimed, 1, "one of four claims of one name gets it");
    assert_eq!(hosts.iter().map(|host| host.acks.len()).sum::<usize>(), 4, "each request is answered, where it was submitted, once");
    let holders: Vec<_> = nodes.iter_mut().map(|node| node.look(b"lamp").unwrap().unwrap()).collect();
    assert!(holders.iter().all(|it| *it == holders[0]));
    let lists: Vec<Vec<_>> = nodes.iter_mut().map(|node| (0..4).map(|place| node.decided(place).unwrap().unwrap()).collect()).collect();
    assert!(lists.iter().all(|it| *it == lists[0]));
}

#[test]
fn what_was_acknowledged_is_there_behind_each_failing_write() {
    for fails_at in 1..40 {
        let mut host = Memory { fails_at: Some(fails_at), ..Memory::default() };
        let mut acked = Vec::new();
        for turn in 0..6 {
            let Ok(mut node) = opened(&mut host, 1, 0) else { continue };
            let name = format!("name-{turn}");
            node.submit(7, turn, Op::Claim(name.as_bytes(), b"x")).unwrap();
            let said = serve(&mut node, &mut host);
            assert!(matches!(said, Ok(()) | Err(Refusal::Device)), "{said:?}");
            acked.extend(host.acks.drain(..).map(|ack| ack.seq));
        }
        let mut node = opened(&mut host, 1, 0).unwrap();
        for seq in acked {
            assert!(node.look(format!("name-{seq}").as_bytes()).unwrap().is_some(), "request {seq} is lost, write {fails_at} failed");
        }
    }
}

#[test]
fn refusals() {
    assert_eq!(Node::open(8, 0, &[], &[], true).err(), Some(Refusal::BadNodes));
    assert_eq!(Node::open(3, 3, &[], &[], true).err(), Some(Refusal::BadNodes));
    assert_eq!(Node::open(1, 0, &[], &[], false).err(), Some(Refusal::Damaged), "files that vanished");
    let mut host = Memory::default();
    let mut node = opened(&mut host, 1, 0).unwrap();
    assert_eq!(Node::open(1, 0, &host.areas[0], &host.areas[1], true).err(), Some(Refusal::Damaged), "a node that isn't new");
    assert_eq!(node.submit(1, 1, Op::Claim(b"LAMP", b"x")), Err(Refusal::BadName));
    assert_eq!(node.submit(1, 1, Op::Claim(b"lamp", &[b'x'; 65])), Err(Refusal::BadValue));
    assert_eq!(node.hear(b"no message"), Err(Refusal::Malformed));
    assert_eq!(node.done(true), Err(Refusal::StrangeMark));
    assert_eq!(node.suspect(2), Err(Refusal::BadNodes));
    assert_eq!(node.look(b"lamp"), Ok(None));
    node.submit(1, 1, Op::Claim(b"lamp", b"x")).unwrap();
    let due = node.due().unwrap().unwrap();
    assert!(!due.bytes.is_empty());
    assert!(node.next_message().unwrap().is_none(), "no message leaves before its fact is synced");
    assert_eq!(node.done(false), Err(Refusal::Device));
    assert_eq!(node.tick(), Err(Refusal::Down));
    assert!(!node.is_up());
}

#[test]
fn snapshot_list_and_watch() {
    let mut host = Memory::default();
    let mut node = opened(&mut host, 1, 0).unwrap();
    for seq in 0..300u64 {
        let name = format!("n-{:03}", seq % 150);
        node.submit(1, seq, if seq < 150 { Op::Claim(name.as_bytes(), b"x") } else { Op::Update(name.as_bytes(), b"y") }).unwrap();
        serve(&mut node, &mut host).unwrap();
    }
    node.snapshot().unwrap();
    assert_eq!(node.snapshot(), Err(Refusal::Busy));
    serve(&mut node, &mut host).unwrap();
    assert!(!host.areas[1].is_empty());
    let mut node = opened(&mut host, 1, 0).unwrap();
    let names: Vec<Vec<u8>> = node.list().unwrap().into_iter().map(|it| it.name).collect();
    assert_eq!(names, (0..150).map(|n| format!("n-{n:03}").into_bytes()).collect::<Vec<_>>());
    let first = node.watch(0, b"n-007").unwrap().unwrap();
    let second = node.watch(first + 1, b"n-007").unwrap().unwrap();
    assert!(first < 150 && (150..300).contains(&second));
    assert_eq!(node.watch(second + 1, b"n-007").unwrap(), None);
    assert_eq!(node.status().unwrap().decided, 300);
}

//! The fixed list of answers, played over the archive (crates/replay/data/README.md says its form).

use binlariat::lent;

struct Reader<'a>(&'a [u8]);

impl<'a> Reader<'a> {
    fn bytes(&mut self, length: usize) -> &'a [u8] {
        let (taken, rest) = self.0.split_at(length);
        self.0 = rest;
        taken
    }

    fn number(&mut self) -> usize {
        u32::from_be_bytes(self.bytes(4).try_into().unwrap()) as usize
    }
}

#[test]
fn the_fixed_list() {
    let path = concat!(env!("CARGO_MANIFEST_DIR"), "/../crates/replay/data/calls");
    let file = std::fs::read(path).unwrap();
    let mut left = Reader(&file);
    let count = left.number();
    assert!(count >= 2000);
    for call in 0..count {
        let [kind, length, listed, work, room, number, answer] = [(); 7].map(|()| left.number());
        let bytes = left.bytes(length);
        let list: Vec<u32> = (0..listed).map(|_| left.number() as u32).collect();
        let answer = left.bytes(answer);
        let (mut work, mut out, mut written) = (vec![1; work], vec![0xA5; room], usize::MAX);
        let got = match kind {
            0 | 1 => lent::cut_store(bytes, &list, kind == 1, &mut work, &mut out, &mut written),
            2 => lent::cut_hvar(bytes, &list, &mut work, &mut out, &mut written),
            _ => lent::cut_vvar(bytes, &list, &mut work, &mut out, &mut written),
        };
        assert_eq!((got as usize, &out[..written]), (number, answer), "call {call}");
        assert!(out[written..].iter().all(|byte| *byte == 0xA5), "call {call}: output past the answer");
        assert!(work.iter().all(|n| *n == (got == 1) as u32), "call {call}: the work area");
    }
    assert!(left.0.is_empty());
}

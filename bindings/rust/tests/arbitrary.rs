//! Any bytes: random ones, and files that were damaged. No call panics, none writes where it should not, and what was answered
//! can be read.

mod files;

use files::*;
use ruvangixo::{Groups, Plan, Refusal, Sorted};

/// How often each test tries.
const TIMES: usize = 4000;

/// A generator of the xorshift kind: the same numbers in each run.
struct Random(u64);

impl Random {
    fn next(&mut self) -> u64 {
        self.0 ^= self.0 << 13;
        self.0 ^= self.0 >> 7;
        self.0 ^= self.0 << 17;
        self.0
    }

    fn below(&mut self, n: usize) -> usize {
        usize::try_from(self.next() % n as u64).unwrap()
    }

    fn byte(&mut self) -> u8 {
        self.next().to_be_bytes()[0]
    }

    fn bytes(&mut self, most: usize) -> Vec<u8> {
        (0..self.below(most + 1)).map(|_| self.byte()).collect()
    }

    /// The file with a few bytes changed, taken out or put in, or cut off; at times as it is, at times others altogether.
    fn damaged(&mut self, file: &[u8]) -> Vec<u8> {
        let mut file = file.to_vec();
        match self.below(10) {
            0 => return [vec![1], self.bytes(100)].concat(),
            1 => return self.bytes(100),
            2 => file.truncate(self.below(file.len() + 1)),
            3 | 4 => {}
            _ => {
                for _ in 0..=self.below(3) {
                    let at = self.below(file.len());
                    match self.below(4) {
                        0 => drop(file.remove(at)),
                        1 => file.insert(at, self.byte()),
                        2 => file[at] ^= 1 << self.below(8),
                        _ => file[at] = self.byte(),
                    }
                }
            }
        }
        file
    }
}

/// The answer of a call on a buffer of any room, where it was done. Behind it, or where it was refused, nothing is changed.
fn lent(random: &mut Random, call: impl Fn(&mut [u8]) -> Result<usize, Refusal>) -> Result<Vec<u8>, Refusal> {
    let mut out = vec![0xd7; [0, 30, 300, 70_000][random.below(4)]];
    let answer = call(&mut out);
    let written = answer.unwrap_or(0);
    assert!(out[written..].iter().all(|&byte| byte == 0xd7));
    if let Err(refusal) = answer {
        assert!((1..=11).contains(&refusal.number()));
        assert!(!refusal.to_string().is_empty());
    }
    if let Err(Refusal::OutputTooShort { needed }) = answer {
        assert!(needed > out.len() as u64);
    }
    out.truncate(written);
    answer.map(|_| out)
}

/// What a call answers into a buffer is what it answers in a vector, but for buffers that are too short.
fn equal(lent: &Result<Vec<u8>, Refusal>, own: &Result<Vec<u8>, Refusal>) {
    match lent {
        Err(Refusal::OutputTooShort { needed }) => assert_eq!(own.as_ref().unwrap().len() as u64, *needed),
        _ => assert_eq!(lent, own),
    }
}

#[test]
fn plans() {
    let mut random = Random(0x5eed_0001);
    let mut done = 0;
    for _ in 0..TIMES {
        let (catalog, list) = (random.damaged(MOTOR_CATALOG), random.damaged(MOTOR_LIST));
        let plan = ruvangixo::plan(&catalog, &list);
        equal(&lent(&mut random, |out| ruvangixo::plan_into(&catalog, &list, out)), &plan);
        let Ok(plan) = plan else { continue };
        done += 1;
        assert!(Plan::read(&plan).is_some());
        assert!(ruvangixo::plan_chunks(&catalog, &plan, 4000).is_ok());
    }
    assert!(done > TIMES / 50, "{done} were done");
}

#[test]
fn plans_of_a_plant() {
    let mut random = Random(0x5eed_0002);
    for _ in 0..TIMES / 20 {
        let (catalog, list) = (random.damaged(PLANT_CATALOG), random.damaged(PLANT_LIST));
        let plan = ruvangixo::plan(&catalog, &list);
        equal(&lent(&mut random, |out| ruvangixo::plan_into(&catalog, &list, out)), &plan);
        assert!(plan.is_err() || Plan::read(&plan.unwrap()).is_some());
    }
}

#[test]
fn groups() {
    let mut random = Random(0x5eed_0003);
    let plan = ruvangixo::plan(MOTOR_CATALOG, MOTOR_LIST).unwrap();
    let mut done = 0;
    for _ in 0..TIMES {
        let (plan, budget) = (random.damaged(&plan), u16::from_be_bytes([random.byte(), random.byte()]));
        let groups = ruvangixo::plan_chunks(MOTOR_CATALOG, &plan, budget);
        equal(&lent(&mut random, |out| ruvangixo::plan_chunks_into(MOTOR_CATALOG, &plan, budget, out)), &groups);
        if let Ok(groups) = groups {
            done += 1;
            assert!(Groups::read(&groups).is_some());
        }
    }
    assert!(done > TIMES / 50, "{done} were done");
}

#[test]
fn tables() {
    let mut random = Random(0x5eed_0004);
    for _ in 0..TIMES {
        let shift = random.below(60);
        let mut table = |count| (0..count).map(|_| random.next() >> shift).collect::<Vec<_>>();
        let (requests, replies) = (table(shift * 5), table(shift * 5));
        let replies = &replies[random.below(2).min(replies.len())..];
        let budget = u16::from_be_bytes([random.byte(), random.byte()]);
        let groups = ruvangixo::chunks(&requests, replies, budget);
        equal(&lent(&mut random, |out| ruvangixo::chunks_into(&requests, replies, budget, out)), &groups);
        let packets = groups.map(|groups| Groups::read(&groups).unwrap().packets);
        assert_eq!(ruvangixo::packets(&requests, replies, budget), packets);
    }
}

#[test]
fn sorted_answers() {
    let mut random = Random(0x5eed_0005);
    let (plan, results) = (ruvangixo::plan(MOTOR_CATALOG, MOTOR_LIST).unwrap(), motor_results());
    let mut done = 0;
    for _ in 0..TIMES {
        let (plan, results) = (random.damaged(&plan), random.damaged(&results));
        let sorted = ruvangixo::sort(&plan, &results);
        equal(&lent(&mut random, |out| ruvangixo::sort_into(&plan, &results, out)), &sorted);
        let Ok(sorted) = sorted else { continue };
        done += 1;
        let members: usize = Plan::read(&plan).unwrap().reads.iter().map(|read| read.members.len()).sum();
        let sorted = Sorted::read(&sorted).unwrap();
        assert_eq!(sorted.entries.len(), members);
        for entry in sorted.entries {
            if let ruvangixo::Entry::Cut(place) = entry {
                assert!(ruvangixo::value_at(&results, place as usize).is_some());
            }
        }
    }
    assert!(done > TIMES / 50, "{done} were done");
}

#[test]
fn cuts() {
    let mut random = Random(0x5eed_0006);
    let value = value_file(&array(&[structure(&[("a", leaf(b"one")), ("b", array(&[leaf(b"two")]))]), leaf(b"")]));
    let path = [3, 1, 0, 0, 0, 0, 0, 1, b'b', 2, 0, 0, 0, 0];
    assert_eq!(ruvangixo::dig(&value, &path), Ok(Some(&leaf(b"two")[..])));
    let mut found = 0;
    for _ in 0..TIMES {
        let (value, path) = (random.damaged(&value), random.damaged(&path));
        if let Ok(Some(part)) = ruvangixo::dig(&value, &path) {
            found += 1;
            assert!(part.len() > 4);
        }
    }
    assert!(found > TIMES / 50, "{found} were found");
}

#[test]
fn readers() {
    let mut random = Random(0x5eed_0007);
    let plan = ruvangixo::plan(PLANT_CATALOG, PLANT_LIST).unwrap();
    let groups = ruvangixo::plan_chunks(PLANT_CATALOG, &plan, 500).unwrap();
    let sorted = ruvangixo::sort(&ruvangixo::plan(MOTOR_CATALOG, MOTOR_LIST).unwrap(), &motor_results()).unwrap();
    for _ in 0..TIMES {
        let any = random.bytes(60);
        let _ = (Plan::read(&any), Groups::read(&any), Sorted::read(&any), ruvangixo::value_at(&any, random.below(70)));
        // Whatever the library accepts as a plan, the reader does.
        let plan = random.damaged(&plan);
        assert!(Plan::read(&plan).is_some() || ruvangixo::plan_chunks(PLANT_CATALOG, &plan, 500).is_err());
        let _ = (Groups::read(&random.damaged(&groups)), Sorted::read(&random.damaged(&sorted)));
    }
}

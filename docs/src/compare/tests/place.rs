//! The place of every id of filled blocks, and of ids over noise for state and cuts.
use compare::same_place;
use reference::generate::any_block;
use reference::random::Random;

#[test]
fn every_id_of_filled_blocks() {
    let mut random = Random::new(81);
    let mut placed = 0;
    for _ in 0..300 {
        let block = any_block(&mut random, 4);
        let call = compare::good_call(&mut random, block);
        let outcome = call.run(compare::fill, &mut random);
        let block = &call.block;
        let ids = 8 * block.samples.len() as u32;
        for id in (0..ids + 3).chain([u32::MAX]) {
            if same_place(block.sizes, &block.cuts, &outcome.state, id) == 0 {
                placed += 1;
            }
        }
        for &id in &outcome.rows {
            assert_eq!(same_place(block.sizes, &block.cuts, &outcome.state, id), 0);
        }
    }
    assert!(placed > 10_000);
}

#[test]
fn noise() {
    let mut random = Random::new(82);
    let mut seen = [0; 20];
    for _ in 0..400 {
        let block = any_block(&mut random, 3);
        let n = block.samples.len();
        let mut cuts = block.cuts.clone();
        let mut state = vec![0; n];
        compare::disturb(&mut random, &mut cuts, &mut state);
        if random.percent(5) {
            cuts.pop();
        }
        if random.percent(5) {
            state.pop();
        }
        let mut sizes = block.sizes;
        if random.percent(5) {
            sizes[random.below(3)] = random.pick(&[0, 65]);
        }
        for id in 0..8 * n as u32 + 2 {
            seen[same_place(sizes, &cuts, &state, id) as usize] += 1;
        }
    }
    for number in [0, 1, 3, 4, 8, 9] {
        assert!(seen[number] > 100, "answer {number} was seen {} times", seen[number]);
    }
}

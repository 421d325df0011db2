//! Compares encode with the crate.
use crate::ask::{self, Crate, Tries};
use crate::check::{broken, place_for, Subject, Tally, Worker};
use crate::inputs::{self, Style, SMALL, STYLES, WITH_FNC2};
use crate::laws::given;
use crate::model::{self, FNC2, LIMIT, SWITCH};
use crate::random::Random;
use crate::run::{Result, Run};
use std::collections::HashMap;

/// All texts of at least `from` code points that begin with `root` and continue with up to `depth`
/// of `letters`.
struct Tree<'a> {
    root: Vec<u32>,
    depth: usize,
    letters: &'a [u32],
    from: usize,
}

/// Up to this length, many continuations are tried after a beginning that the crate refuses.
const MANY_UP_TO: usize = 4;

/// What is tried after this beginning.
fn tries(text: &[u32]) -> Tries {
    if text.len() <= MANY_UP_TO {
        Tries::Many
    } else {
        Tries::Digit
    }
}

/// Whether the crate, with this answer, refuses the text and also everything that is tried after
/// it.
fn dies(text: &[u32], said: &Crate) -> bool {
    !text.is_empty()
        && matches!(said, Crate::Length | Crate::Character)
        && !ask::continues(text, tries(text))
}

/// Walks a tree of texts. `dead` is the first place where the beginning can no longer be continued.
fn walk(
    worker: &mut Worker,
    tree: &Tree,
    text: &mut Vec<u32>,
    depth: usize,
    dead: Option<usize>,
) -> Result<()> {
    let said = ask::ask(text);
    let dead = dead.or_else(|| dies(text, &said).then(|| text.len() - 1));
    if text.len() >= tree.from {
        visit(worker, text, &said, dead)?;
    }
    if depth == 0 {
        return Ok(());
    }
    for &letter in tree.letters {
        text.push(letter);
        walk(worker, tree, text, depth - 1, dead)?;
        text.pop();
    }
    Ok(())
}

/// Compares one text of the exhaustive run: with just enough room and, if it is accepted, also with
/// one cell less; if it has a ź, also with none and with more.
fn visit(worker: &mut Worker, text: &[u32], said: &Crate, dead: Option<usize>) -> Result<()> {
    let mark = [0xA7, 0x5C, 0xFF][text.len() % 3];
    worker.count_text(said);
    let need = match said {
        Crate::Row(row) => row.len(),
        _ => 35,
    };
    if let (Crate::Row(_), Some(place)) = (said, dead) {
        let expected =
            format!("refused by the crate, as no beginning up to place {place} is continued");
        return Err(broken(
            Subject::Count,
            text.to_vec(),
            expected,
            "accepted by the crate".into(),
        ));
    }
    worker.drop_in(text, said)?;
    let answer = worker.encode_known(text, said, dead.unwrap_or(text.len()), need, mark)?;
    let others: &[usize] = match answer {
        0 => &[need - 1],
        19 => &[0, need - 1, need + 64],
        _ => &[],
    };
    others
        .iter()
        .try_for_each(|&room| worker.encode_known(text, said, 0, room, mark).map(drop))
}

/// Two digits, Ź and a switch, for longer texts in set C.
const PAIRS: [u32; 4] = [0x30, 0x37, 0x179, 0x181];

/// The trees of the exhaustive run: texts of 0, 1 and 2 code points of the alphabet; a START and 2
/// of the alphabet; a START and 3, 4 and 5 of the small alphabet; Ć and 6, 7 and 8 of digits, Ź and
/// a switch.
fn trees(alphabet: &[u32]) -> Vec<Tree<'_>> {
    let mut trees = vec![Tree {
        root: vec![],
        depth: 0,
        letters: &[],
        from: 0,
    }];
    trees.extend(alphabet.iter().map(|&one| Tree {
        root: vec![one],
        depth: 1,
        letters: alphabet,
        from: 1,
    }));
    let starts = || SWITCH.into_iter();
    trees.extend(starts().flat_map(|start| {
        alphabet.iter().map(move |&one| Tree {
            root: vec![start, one],
            depth: 1,
            letters: alphabet,
            from: 3,
        })
    }));
    trees.extend(starts().flat_map(|start| {
        SMALL.iter().map(move |&one| Tree {
            root: vec![start, one],
            depth: 2,
            letters: &SMALL,
            from: 4,
        })
    }));
    let twos = || {
        SMALL
            .iter()
            .flat_map(|&one| SMALL.iter().map(move |&two| (one, two)))
    };
    trees.extend(starts().flat_map(|start| {
        twos().map(move |(one, two)| Tree {
            root: vec![start, one, two],
            depth: 3,
            letters: &SMALL,
            from: 5,
        })
    }));
    trees.extend(PAIRS.iter().map(|&one| Tree {
        root: vec![SWITCH[2], one],
        depth: 7,
        letters: &PAIRS,
        from: 7,
    }));
    trees
}

/// The exhaustive run.
pub fn all(run: &Run) -> Result<Tally> {
    walk_all(run, &trees(&inputs::alphabet()))
}

/// Walks every tree, each as a block.
fn walk_all(run: &Run, trees: &[Tree]) -> Result<Tally> {
    run.blocks(trees.len() as u64, |worker, block| {
        let tree = &trees[block as usize];
        let dead = ask::place_from_left(&tree.root, tries(&tree.root))
            .filter(|&place| !matches!(ask::ask(&tree.root[..=place]), Crate::NoText(_)));
        walk(worker, tree, &mut tree.root.clone(), tree.depth, dead)
    })
}

/// Every value up to 110FFF (hex), alone and after each START.
pub fn points(run: &Run) -> Result<Tally> {
    run.blocks(0x111, |worker, block| {
        for value in (block as u32 * 0x1000..).take(0x1000) {
            visit_short(worker, &[value])?;
            SWITCH
                .iter()
                .try_for_each(|&start| visit_short(worker, &[start, value]))?;
        }
        Ok(())
    })
}

/// Compares one text; the place of refusal 3 is searched from the left.
fn visit_short(worker: &mut Worker, text: &[u32]) -> Result<()> {
    let said = ask::ask(text);
    let dead = if said == Crate::Character {
        ask::place_from_left(text, Tries::Digit)
    } else {
        None
    };
    visit(worker, text, &said, dead)
}

/// Compares one text with a random room, mostly close to what is needed.
fn one(worker: &mut Worker, random: &mut Random, text: &[u32]) -> Result<()> {
    let said = ask::ask(text);
    let need = match &said {
        Crate::Row(row) => row.len(),
        _ => 35 + random.below(12),
    };
    with_room(
        worker,
        text,
        &said,
        inputs::room(random, need),
        random.mark(),
    )
}

/// Compares one text with this room, and through the type with the crate's signatures.
fn with_room(worker: &mut Worker, text: &[u32], said: &Crate, room: usize, mark: u8) -> Result<()> {
    worker.count_text(said);
    worker.drop_in(text, said)?;
    worker
        .encode_known(text, said, place_for(text, said), room, mark)
        .map(drop)
}

/// The numbers of symbols in `lengths`: each one up to 300, and some up to the limit and above it.
fn label_lengths() -> Vec<usize> {
    let between = [510, 511, 512, 513, 514, 767, 768, 1000, 2047, 2048, 3500];
    (1..=300).chain(between).chain([5000]).collect()
}

/// Labels of every length in every style, with rooms close to the length of the row; and damaged
/// copies.
pub fn lengths(run: &Run) -> Result<Tally> {
    let (lengths, alphabet) = (label_lengths(), inputs::alphabet());
    run.blocks(lengths.len() as u64, |worker, block| {
        let mut random = Random::new(run.seed, "encode-lengths", block);
        let n = lengths[block as usize];
        let copies = if (250..=260).contains(&n) { 8 } else { 1 };
        for style in STYLES.into_iter().cycle().take(copies * STYLES.len()) {
            let mut text = inputs::label(&mut random, n, style);
            with_rooms(worker, &mut random, &text, n)?;
            inputs::damage(&mut random, &mut text, &alphabet);
            one(worker, &mut random, &text)?;
        }
        Ok(())
    })
}

/// Compares a label of n symbols with rooms close to the length of its row.
fn with_rooms(worker: &mut Worker, random: &mut Random, text: &[u32], n: usize) -> Result<()> {
    let said = ask::ask(text);
    worker.count_text(&said);
    worker.drop_in(text, &said)?;
    for room in inputs::near(model::cells(n)) {
        worker.encode_known(text, &said, 0, room, random.mark())?;
    }
    Ok(())
}

/// The numbers of symbols in `limit`: each one on either side of the limit, from it on first, and
/// some below it.
fn limit_lengths() -> Vec<usize> {
    let below = [511, 512, 513, 1023, 1024, 1025, 2049, 3000, 3914, 3915];
    (LIMIT..=LIMIT + 5)
        .chain(LIMIT - 4..LIMIT)
        .chain(below)
        .collect()
}

/// Long labels in every style, most of them close to the limit, with rooms close to the length of
/// the row; and copies that are refused for what stands near their end.
pub fn limit(run: &Run) -> Result<Tally> {
    let lengths = limit_lengths();
    run.blocks(lengths.len() as u64, |worker, block| {
        let mut random = Random::new(run.seed, "encode-limit", block);
        let n = lengths[block as usize];
        for (way, style) in STYLES.into_iter().enumerate() {
            let mut text = inputs::label(&mut random, n, style);
            with_rooms(worker, &mut random, &text, n)?;
            spoil_far(&mut random, &mut text, n + way);
            let (said, room) = (ask::ask(&text), inputs::room(&mut random, model::cells(n)));
            with_room(worker, &text, &said, room, random.mark())?;
        }
        Ok(())
    })
}

/// Spoils a long label in one of six ways: by a code point without a number at the end or close to
/// it, by a digit left over, by a ź at the end or at place 1, or by both of these and €.
fn spoil_far(random: &mut Random, text: &mut Vec<u32>, way: usize) {
    match way % 6 {
        0 => text.push(0x20AC),
        1 => text.insert(text.len() - random.below(40), 0x7F),
        2 => text.extend([SWITCH[2], 0x39]),
        3 => text.push(FNC2),
        4 => text.insert(1, FNC2),
        _ => {
            text.insert(1, FNC2);
            text.extend([FNC2, 0x20AC]);
        }
    }
}

/// Texts of far more symbols than the limit, without ź and with it: one that the crate accepts, and
/// one that it refuses at some place.
pub fn far(run: &Run) -> Result<Tally> {
    let lengths = [
        6000,
        65_535,
        65_536,
        65_537,
        65_536 + LIMIT,
        65_536 + LIMIT + 1,
        70_000,
    ];
    run.blocks(lengths.len() as u64, |worker, block| {
        let mut random = Random::new(run.seed, "encode-far", block);
        let n = lengths[block as usize];
        for style in [Style::Mixed, Style::Retired] {
            let mut text = inputs::label(&mut random, n, style);
            far_one(worker, &mut random, &text)?;
            text.insert(random.below(n), 0x20AC);
            far_one(worker, &mut random, &text)?;
        }
        Ok(())
    })
}

/// Compares one text of far more symbols than the limit.
fn far_one(worker: &mut Worker, random: &mut Random, text: &[u32]) -> Result<()> {
    let room = inputs::room(random, model::cells(LIMIT));
    with_room(worker, text, &ask::ask(text), room, random.mark())
}

/// Random texts, good and damaged.
pub fn random(run: &Run) -> Result<Tally> {
    let alphabet = inputs::alphabet();
    run.random_blocks("encode-random", run.random, |worker, random| {
        let text = inputs::text(random, &alphabet);
        one(worker, random, &text)
    })
}

/// All texts of a START and up to four of the small alphabet with ź, but for the START alone.
pub fn retired(run: &Run) -> Result<Tally> {
    let trees: Vec<Tree> = SWITCH
        .iter()
        .flat_map(|&start| {
            WITH_FNC2.iter().map(move |&one| Tree {
                root: vec![start, one],
                depth: 3,
                letters: &WITH_FNC2,
                from: 2,
            })
        })
        .collect();
    walk_all(run, &trees)
}

/// Random texts with ź, good and damaged, each with several rooms.
pub fn retired_random(run: &Run) -> Result<Tally> {
    let alphabet = inputs::alphabet();
    run.random_blocks("encode-retired", run.random / 40, |worker, random| {
        let text = inputs::text_with_fnc2(random, &alphabet);
        let said = ask::ask(&text);
        let (place, need) = match &said {
            Crate::Row(row) => (0, row.len()),
            _ => (place_for(&text, &said), 35),
        };
        worker.count_text(&said);
        worker.drop_in(&text, &said)?;
        for room in inputs::near(need) {
            worker.encode_known(&text, &said, place, room, random.mark())?;
        }
        Ok(())
    })
}

/// Random accepted texts, many with Ź inside pairs: the row is the same when Ź is moved ahead of
/// its pair, and the other laws of texts hold.
pub fn moved(run: &Run) -> Result<Tally> {
    run.random_blocks("encode-moved", run.random / 20, |worker, random| {
        let (n, style) = (
            inputs::symbols(random),
            if random.chance(70) {
                Style::Held
            } else {
                random.pick(&STYLES)
            },
        );
        let text = inputs::label(random, n, style);
        worker.tally.inputs += 1;
        worker.text_law(&text)
    })
}

/// The rows so far with the moved text of each, and the moved texts with the row of each.
#[derive(Default)]
struct Met {
    by_row: HashMap<Vec<u8>, Vec<u32>>,
    by_moved: HashMap<Vec<u32>, Vec<u8>>,
}

/// Compares one text that the crate accepts with those before it: our row is the crate's, or our
/// answer is 19 at the first ź; the crate's row begins with the START of the text, and another text
/// has the same row exactly if it has the same moved text. For a short text the law of texts is
/// tested too.
fn meet(worker: &mut Worker, met: &mut Met, text: &[u32]) -> Result<()> {
    let Some(row) = ask::row(text) else {
        return Ok(());
    };
    let (expected, ours) = (given(text, &row), worker.made_row(text));
    if ours != expected {
        return Err(broken(
            Subject::TextLaw,
            text.to_vec(),
            format!("encode: {expected:?}"),
            format!("{ours:?}"),
        ));
    }
    if worker.model.number(&row[..11]).map(usize::from)
        != SWITCH
            .iter()
            .position(|&start| start == text[0])
            .map(|set| 103 + set)
    {
        return Err(broken(
            Subject::Count,
            text.to_vec(),
            "a row that begins with its START".into(),
            format!("{row:?}"),
        ));
    }
    let moved = model::moved(text);
    let by_row = met
        .by_row
        .entry(row.clone())
        .or_insert_with(|| moved.clone());
    let by_moved = met
        .by_moved
        .entry(moved.clone())
        .or_insert_with(|| row.clone());
    if *by_row != moved || *by_moved != row {
        let expected = format!("one row exactly for one moved text: {moved:X?} and {row:?}");
        return Err(broken(
            Subject::Count,
            text.to_vec(),
            expected,
            format!("{by_row:X?} and {by_moved:?}"),
        ));
    }
    worker.tally.inputs += 1;
    worker.tally.laws += 1;
    if text.len() > 5 {
        return Ok(());
    }
    worker.text_law(text)
}

/// Does the same for this text and for those that continue it with up to `depth` of `letters`, as
/// long as they can be continued.
fn meet_below(
    worker: &mut Worker,
    met: &mut Met,
    text: &mut Vec<u32>,
    letters: &[u32],
    depth: usize,
) -> Result<()> {
    if !ask::continues(text, Tries::Digit) {
        return Ok(());
    }
    meet(worker, met, text)?;
    for &letter in letters.iter().filter(|_| depth > 0) {
        text.push(letter);
        meet_below(worker, met, text, letters, depth - 1)?;
        text.pop();
    }
    Ok(())
}

/// Two texts that the crate accepts, of a START and up to 5 of the small alphabet, have the same
/// row in the crate exactly if they have the same moved text; and so have those of the small
/// alphabet with ź. Each START is a block of its own, since a row begins with its START.
pub fn shared(run: &Run) -> Result<Tally> {
    let alphabets: [&[u32]; 2] = [&SMALL, &WITH_FNC2];
    run.blocks(2 * 3, |worker, block| {
        let (alphabet, start) = (block as usize / 3, block as usize % 3);
        let (met, text) = (&mut Met::default(), &mut vec![SWITCH[start]]);
        meet_below(worker, met, text, alphabets[alphabet], 5)
    })
}

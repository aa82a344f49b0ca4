//! Families of cases that are listed in full: shapes, orders of joining, markers, io kinds, classes and the like.

use crate::case::{Case, Held, Step};
use crate::draft::{Draft, Tree};
use crate::host::{ErrorNumber, Kind, LayerKind};
use crate::names::{CLASSES, IoKind, Rank};

/// A tree without errors: the children of a frame.
#[derive(Clone, Debug)]
pub struct Shape(Vec<Shape>);

/// Every ordered tree of `frames` frames.
pub fn shapes(frames: usize) -> Vec<Shape> {
    forests(frames - 1).into_iter().map(Shape).collect()
}

fn forests(frames: usize) -> Vec<Vec<Shape>> {
    if frames == 0 {
        return vec![Vec::new()];
    }
    let mut forests_found = Vec::new();
    for first in 1..=frames {
        for tree in shapes(first) {
            for mut rest in forests(frames - first) {
                rest.insert(0, tree.clone());
                forests_found.push(rest);
            }
        }
    }
    forests_found
}

/// What may stand in a frame of an enumerated tree.
const VARIANTS: [fn(&mut Draft, usize) -> ErrorNumber; 10] = [
    |draft, frame| draft.plain(None, format!("frame {frame}")),
    |draft, frame| {
        let source = draft.plain(None, format!("source {frame}"));
        draft.plain(Some(source), format!("frame {frame}"))
    },
    |draft, frame| draft.marker(Rank(10 - frame), None),
    |draft, frame| {
        let source = draft.plain(None, format!("marked {frame}"));
        draft.marker(Rank(frame), Some(source))
    },
    |draft, frame| draft.message(Some(Rank(10 - frame)), format!("message {frame}")),
    |draft, frame| draft.io(IoKind(frame + 2), None),
    |draft, frame| {
        let payload = draft.message(Some(Rank(6)), format!("payload {frame}"));
        draft.io(IoKind(2), Some(payload))
    },
    |draft, _| draft.reserve(),
    |draft, frame| {
        let marker = draft.marker(Rank(frame), None);
        draft.io(IoKind(frame + 4), Some(marker))
    },
    |draft, frame| {
        let inner = draft.marker(Rank(frame), None);
        let source = draft.plain(Some(inner), format!("owner {frame}"));
        draft.marker(Rank(10), Some(source))
    },
];

/// Every tree of `frames` frames with every choice among the first `variants` variants in each frame.
pub fn small(frames: usize, variants: usize) -> Vec<Case> {
    let mut cases = Vec::new();
    for (index, shape) in shapes(frames).iter().enumerate() {
        for choice in 0..variants.pow(frames as u32) {
            let name = format!("small-{frames}-{variants}-{index}-{choice}");
            let mut draft = Draft::table(name, (index * 7919 + choice) as u64);
            let errors: Vec<ErrorNumber> = (0..frames)
                .map(|frame| VARIANTS[choice / variants.pow(frame as u32) % variants](&mut draft, frame))
                .collect();
            let tree = planted(shape, &mut errors.iter().copied());
            draft.tree(&tree);
            cases.push(draft.finish());
        }
    }
    cases
}

fn planted(shape: &Shape, errors: &mut impl Iterator<Item = ErrorNumber>) -> Tree {
    let error = errors.next().expect("a shape has an error for each frame");
    Tree { error, children: shape.0.iter().map(|child| planted(child, errors)).collect() }
}

fn permutations(count: usize) -> Vec<Vec<usize>> {
    if count == 0 {
        return vec![Vec::new()];
    }
    let mut found = Vec::new();
    for shorter in permutations(count - 1) {
        for at in 0..count {
            let mut longer = shorter.clone();
            longer.insert(at, count - 1);
            found.push(longer);
        }
    }
    found
}

/// A handful of reports that differ in class, verdict and depth.
fn delivered(draft: &mut Draft, count: usize) -> Vec<Tree> {
    let gauge = draft.io(IoKind(6), None);
    let busy = draft.message(Some(Rank(10)), "drive busy");
    let order = draft.message(Some(Rank(0)), "order cancelled");
    let ram = draft.plain(Some(gauge), "ram stalled");
    let lost = draft.marker(Rank(9), Some(gauge));
    let trees = [
        Tree::leaf(gauge),
        Tree::over(ram, vec![Tree::leaf(busy)]),
        Tree::leaf(order),
        Tree::leaf(lost),
        Tree::leaf(gauge),
    ];
    trees[..count].to_vec()
}

/// `count` reports under one root in every order, by each call that joins a row.
pub fn row_orders(count: usize) -> Vec<Case> {
    let mut cases = Vec::new();
    for (index, order) in permutations(count).into_iter().enumerate() {
        for way in ["raise-all", "chain", "chain-all"] {
            let mut draft = Draft::table(format!("order-{count}-{index}-{way}"), index as u64);
            let reports = delivered(&mut draft, count);
            let root = draft.plain(None, "gate stopped");
            let row: Vec<Tree> = order.iter().map(|at| reports[*at].clone()).collect();
            match way {
                "raise-all" => draft.tree_by_raise_all(root, &row),
                "chain" => draft.tree_by_chain(root, &row),
                _ => draft.tree_by_chain_all(root, &row),
            };
            cases.push(draft.finish());
        }
    }
    cases
}

/// `count` reports joined two at a time, by every row of joins.
pub fn pair_orders(count: usize) -> Vec<Case> {
    let mut rows = vec![(Vec::new(), (0..count).collect::<Vec<usize>>())];
    for _ in 1..count {
        rows = rows.iter().flat_map(one_join_further).collect();
    }
    let mut cases = Vec::new();
    for (index, (joins, _)) in rows.into_iter().enumerate() {
        let mut draft = Draft::table(format!("pairs-{count}-{index}"), index as u64);
        let reports = delivered(&mut draft, count);
        let names: Vec<_> = reports.iter().map(|report| draft.tree(report)).collect();
        for (head, tail) in joins {
            draft.step(Step::Chain(names[head], names[tail]));
        }
        cases.push(draft.finish());
    }
    cases
}

type Joins = (Vec<(usize, usize)>, Vec<usize>);

fn one_join_further((joins, standing): &Joins) -> Vec<Joins> {
    let mut further = Vec::new();
    for head in standing {
        for tail in standing.iter().filter(|tail| *tail != head) {
            let mut joins = joins.clone();
            joins.push((*head, *tail));
            further.push((joins, standing.iter().copied().filter(|at| at != tail).collect()));
        }
    }
    further
}

/// Equal errors beside, above and beneath each other.
pub fn equal_errors() -> Vec<Case> {
    let leaf = Tree::leaf;
    let patterns: [fn() -> Tree; 9] = [
        || Tree::over(2, vec![Tree::leaf(0), Tree::leaf(0)]),
        || Tree::over(2, vec![Tree::leaf(0), Tree::leaf(0), Tree::leaf(0)]),
        || Tree::over(0, vec![Tree::leaf(0)]),
        || Tree::over(0, vec![Tree::over(0, vec![Tree::leaf(0)])]),
        || Tree::over(1, vec![Tree::leaf(0)]),
        || Tree::over(1, vec![Tree::leaf(1)]),
        || Tree::over(2, vec![Tree::over(1, vec![Tree::leaf(0)]), Tree::over(1, vec![Tree::leaf(0)])]),
        || Tree::over(3, vec![Tree::leaf(0), Tree::leaf(3)]),
        || Tree::over(3, vec![Tree::leaf(3), Tree::leaf(3)]),
    ];
    let case = |(index, tree): (usize, Tree)| {
        let mut draft = Draft::table(format!("equal-{index}"), index as u64);
        let gauge = draft.plain(None, "gauge fault");
        draft.plain(Some(gauge), "drive fault");
        draft.message(None, "gate fault");
        draft.marker(Rank(10), Some(gauge));
        draft.tree(&tree);
        draft.finish()
    };
    let wide = Tree::over(2, vec![leaf(1); 12]);
    patterns.iter().map(|pattern| pattern()).chain([wide]).enumerate().map(case).collect()
}

/// Markers over markers, marker roots with none to three heads, and reports of markers alone.
pub fn markers() -> Vec<Case> {
    let mut cases = Vec::new();
    for rank in Rank::all() {
        let mut draft = Draft::table(format!("markers-alone-{}", rank.0), rank.0 as u64);
        let bare = draft.marker(rank, None);
        let other = draft.marker(Rank((rank.0 + 4) % CLASSES.len()), None);
        let around = draft.marker(Rank((rank.0 + 2) % CLASSES.len()), Some(bare));
        draft.layer(LayerKind::Marker);
        let entry = draft.entry(Kind::Marker(rank), around);
        for tree in [
            Tree::leaf(bare),
            Tree::leaf(around),
            Tree::leaf(entry),
            Tree::over(bare, vec![Tree::leaf(other)]),
            Tree::over(around, vec![Tree::leaf(bare), Tree::leaf(other)]),
            Tree::over(entry, vec![Tree::leaf(other), Tree::leaf(entry)]),
        ] {
            draft.tree(&tree);
        }
        cases.push(draft.finish());
    }
    for heads in 0..=3 {
        for depth in 1..=4 {
            cases.push(marker_root(heads, depth));
        }
    }
    cases
}

fn marker_root(heads: usize, depth: usize) -> Case {
    let mut draft = Draft::table(format!("marker-root-{heads}-{depth}"), (heads * 10 + depth) as u64);
    let inner = draft.plain(None, "inner");
    let owner = draft.plain(Some(inner), "owner");
    let sources = [None, Some(inner), Some(owner)];
    let mut marker = draft.marker(Rank(depth), sources[heads % 3]);
    for level in 1..depth {
        marker = draft.marker(Rank(10 - level), Some(marker));
    }
    let bare = draft.marker(Rank(8), None);
    let children: Vec<Tree> = (0..heads)
        .map(|head| {
            let text = draft.plain(None, format!("head {head}"));
            if head == 1 { Tree::over(bare, vec![Tree::leaf(text), Tree::leaf(owner)]) } else { Tree::leaf(text) }
        })
        .collect();
    draft.tree(&Tree::over(marker, children));
    draft.finish()
}

/// Long source chains: alone, under a fork, with markers and io errors in between.
pub fn deep() -> Vec<Case> {
    let mut cases = Vec::new();
    for length in [2, 3, 5, 10, 50, 200] {
        for sort in ["plain", "marked", "wrapped"] {
            let mut draft = Draft::table(format!("deep-{length}-{sort}"), length as u64);
            let mut error = draft.message(Some(Rank(4)), "bottom");
            for level in 1..length {
                error = match (sort, level % 3) {
                    ("marked", 0) => draft.marker(Rank(level % CLASSES.len()), Some(error)),
                    ("wrapped", 0) => draft.io(IoKind(level % 16), Some(error)),
                    _ => draft.plain(Some(error), format!("level {level}")),
                };
            }
            let short = draft.plain(None, "beside");
            draft.tree(&Tree::leaf(error));
            if length < 200 {
                draft.tree(&Tree::over(short, vec![Tree::leaf(error), Tree::leaf(short), Tree::leaf(error)]));
                draft.tree(&Tree::over(error, vec![Tree::leaf(short)]));
            }
            cases.push(draft.finish());
        }
    }
    cases
}

/// Wide forks, so that numbers get a second and a third digit, and forks within forks.
pub fn wide() -> Vec<Case> {
    let mut cases = Vec::new();
    for width in [2, 9, 10, 11, 12, 30, 101] {
        let mut draft = Draft::table(format!("wide-{width}"), width as u64);
        let gauge = draft.plain(None, "gauge");
        let drive = draft.plain(Some(gauge), "drive");
        let gate = draft.message(Some(Rank(10)), "gate");
        let row = |index: usize| match index % 5 {
            0 => Tree::leaf(drive),
            3 => Tree::over(gate, vec![Tree::leaf(gauge), Tree::leaf(gauge)]),
            _ => Tree::leaf(gauge),
        };
        let tree = Tree::over(gate, (0..width).map(row).collect());
        draft.tree(&tree);
        if width < 30 {
            draft.tree(&Tree::over(gauge, vec![tree.clone(), Tree::leaf(drive), tree]));
        }
        cases.push(draft.finish());
    }
    cases
}

/// Each io kind alone and around each sort of payload, in a table and by the io layer.
pub fn io_kinds() -> Vec<Case> {
    IoKind::all().flat_map(|kind| [io_in_a_table(kind), io_by_the_layer(kind)]).collect()
}

fn io_in_a_table(kind: IoKind) -> Case {
    let mut draft = Draft::table(format!("io-table-{}", kind.0), kind.0 as u64);
    let plain = draft.plain(None, "plain");
    let message = draft.message(Some(Rank(6)), "login");
    let bare = draft.marker(Rank(kind.0 % CLASSES.len()), None);
    let marker = draft.marker(Rank(6), Some(plain));
    let reserve = draft.reserve();
    let alone = draft.io(kind, None);
    let next = draft.io(IoKind((kind.0 + 1) % 16), Some(bare));
    for payload in [plain, message, bare, marker, reserve, alone, next] {
        let around = draft.io(kind, Some(payload));
        draft.tree(&Tree::leaf(around));
    }
    draft.tree(&Tree::over(alone, vec![Tree::leaf(next), Tree::leaf(alone)]));
    draft.finish()
}

fn io_by_the_layer(kind: IoKind) -> Case {
    let mut draft = Draft::drive(format!("io-layer-{}", kind.0), kind.0 as u64);
    draft.layer(LayerKind::Io);
    let around_gauge = draft.entry(Kind::Io(kind), kind.0);
    let around_gate = draft.entry(Kind::Io(IoKind(15 - kind.0)), 32 + kind.0);
    let around_entry = draft.entry(Kind::Io(kind), around_gate);
    draft.layer(LayerKind::Marker);
    let marked = draft.entry(Kind::Marker(Rank(kind.0 % CLASSES.len())), around_entry);
    for error in [around_gauge, around_gate, around_entry, marked] {
        draft.tree(&Tree::leaf(error));
    }
    draft.tree(&Tree::over(16 + kind.0, vec![Tree::leaf(around_gauge), Tree::leaf(marked)]));
    draft.finish()
}

/// Payloads of a permission error, most of them with an authentication class somewhere.
const PERMISSION_PAYLOADS: [fn(&mut Draft) -> ErrorNumber; 9] = [
    |draft| draft.message(Some(Rank(6)), "login"),
    |draft| draft.marker(Rank(6), None),
    |draft| {
        let plain = draft.plain(None, "door");
        draft.marker(Rank(6), Some(plain))
    },
    |draft| {
        let marker = draft.marker(Rank(6), None);
        draft.plain(Some(marker), "door")
    },
    |draft| {
        let login = draft.message(Some(Rank(6)), "login");
        let io = draft.io(IoKind(0), Some(login));
        draft.plain(Some(io), "door")
    },
    |draft| {
        let login = draft.message(Some(Rank(6)), "login");
        draft.io(IoKind(2), Some(login))
    },
    |draft| {
        let login = draft.message(Some(Rank(6)), "login");
        draft.marker(Rank(7), Some(login))
    },
    |draft| draft.message(Some(Rank(7)), "badge"),
    |draft| draft.plain(None, "door"),
];

/// Permission errors with an authentication class beneath them, above them and beside them.
pub fn authentication() -> Vec<Case> {
    let denied = IoKind(2);
    let case = |(index, payload): (usize, &fn(&mut Draft) -> ErrorNumber)| {
        let mut draft = Draft::table(format!("authentication-{index}"), index as u64);
        let beneath = payload(&mut draft);
        let around = draft.io(denied, Some(beneath));
        let above = draft.marker(Rank(6), Some(around));
        let bare = draft.io(denied, None);
        draft.tree(&Tree::leaf(around));
        draft.tree(&Tree::leaf(above));
        draft.tree(&Tree::over(bare, vec![Tree::leaf(beneath)]));
        draft.tree(&Tree::over(around, vec![Tree::leaf(bare)]));
        draft.finish()
    };
    PERMISSION_PAYLOADS.iter().enumerate().map(case).collect()
}

/// Each class beside each class, as a message and as a marker.
pub fn class_pairs() -> Vec<Case> {
    let case = |first: Rank| {
        let mut draft = Draft::table(format!("classes-{}", first.0), first.0 as u64);
        let root = draft.plain(None, "gate");
        let first_message = draft.message(Some(first), "first");
        for second in Rank::all() {
            let second_marker = draft.marker(second, Some(root));
            draft.tree(&Tree::over(root, vec![Tree::leaf(first_message), Tree::leaf(second_marker)]));
        }
        draft.finish()
    };
    Rank::all().map(case).collect()
}

/// Each error of the drive host alone.
pub fn drive_errors() -> Vec<Case> {
    let stages = ["gauge", "drive", "gate"].iter().enumerate();
    stages
        .map(|(stage, name)| {
            let mut draft = Draft::drive(format!("drive-{name}"), stage as u64);
            for reason in 0..16 {
                draft.new_report(16 * stage + reason);
            }
            draft.finish()
        })
        .collect()
}

/// Draining, taking from empty rows, discarding, and going through chains.
pub fn calls() -> Vec<Case> {
    let mut draft = Draft::drive("calls-empty-rows", 1);
    let row = draft.fresh_basket();
    draft.step(Step::Basket(row));
    draft.step(Step::Take(row, None));
    let (name, at) = (draft.fresh_report(), draft.at(33));
    draft.step(Step::RaiseAll(name, row, at));
    draft.step(Step::DrainChildren(name, row));
    draft.step(Step::Take(row, None));
    draft.step(Step::ChainAll(name, row));
    draft.step(Step::Ask(name));
    draft.step(Step::Discard(Held::Report(name)));
    draft.free_report(name);
    draft.new_report(5);
    vec![draft.finish()]
}

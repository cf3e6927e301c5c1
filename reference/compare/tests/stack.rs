//! How much stack each function of `include/guard.h` takes: it is called on a painted stack, with rules and texts of the deepest nesting,
//! full scripts and random requests, and what was painted over is counted. The header says these numbers; they are not proved.
use compare::face::{Face, STATES_NUMBERS, STATE_NUMBERS};
use compare::proved::{library, Form, Function, Library};
use compare::request::{Request, Stationed};
use compare::requests::{limits, moving, request, stations};
use reference::rule::{check_rule_in, Node};
use reference::script::Line;
use std::arch::asm;
use std::collections::BTreeMap;
use std::hint::black_box;

/// Words of the stack that the functions are called on. Those that find facts keep all facts of a script there, those that weave call
/// themselves, and those for stations have four of everything: they have a larger one.
const WORDS: usize = 4096;
const LARGE_WORDS: usize = 32_768;
const REQUESTS: u64 = 20_000;

#[repr(align(16))]
struct Stack<const WORDS: usize>([u64; WORDS]);

/// Painting the larger takes its time.
struct Stacks {
    small: Box<Stack<WORDS>>,
    large: Box<Stack<LARGE_WORDS>>,
}

/// What word i is painted with: no two alike, and nothing that a program would write.
fn paint(i: usize) -> u64 {
    (i as u64 + 1).wrapping_mul(0x9e37_79b9_7f4a_7c15)
}

extern "C" fn enter<X: FnMut()>(work: *mut X) {
    // Safety: `painted` hands over its own closure, which nothing else uses meanwhile.
    unsafe { (*work)() }
}

/// Does the work on a stack of its own, and answers how many bytes of it were written.
fn painted<const WORDS: usize, X: FnMut()>(stack: &mut Stack<WORDS>, mut work: X) -> usize {
    for (i, word) in stack.0.iter_mut().enumerate() {
        *word = paint(i);
    }
    let top = stack.0.as_mut_ptr_range().end;
    // Safety: r12 keeps the old stack pointer over the call, and the stack has several times what the work takes: see the assertion.
    unsafe {
        asm!(
            "xchg rsp, r12",
            "call {enter}",
            "mov rsp, r12",
            enter = in(reg) enter::<X> as extern "C" fn(*mut X),
            in("rdi") &mut work,
            inout("r12") top => _,
            clobber_abi("C"),
        );
    }
    let untouched = stack.0.iter().enumerate().position(|(i, &word)| word != paint(i)).unwrap();
    assert!(untouched > WORDS / 2, "the work takes less than half of the stack");
    8 * (WORDS - untouched)
}

extern "C" fn idle() -> u32 {
    0
}

/// A function that does nothing in the place of another.
fn idle_for<F: Copy>(function: Function<F>) -> Function<F> {
    // Safety: F is a pointer to a function of the C interface; one that looks at none of its arguments may be called as any such.
    let call = unsafe { std::mem::transmute_copy(&(idle as extern "C" fn() -> u32)) };
    Function { call, ..function }
}

fn idle_library<W: Form>() -> Library<W> {
    let Library { text, rule, bare, script, weave, facts, judge, limits, run, fresh, step, stations, move_rule, move_script } =
        library::<W>();
    Library {
        text: idle_for(text),
        rule: idle_for(rule),
        bare: idle_for(bare),
        script: idle_for(script),
        weave: idle_for(weave),
        facts: idle_for(facts),
        judge: idle_for(judge),
        limits: idle_for(limits),
        run: idle_for(run),
        fresh: idle_for(fresh),
        step: idle_for(step),
        stations: idle_for(stations),
        move_rule: idle_for(move_rule),
        move_script: idle_for(move_script),
    }
}

/// What a call takes beyond one that does nothing, and its return address.
fn taken<const WORDS: usize, W: Form>(stack: &mut Stack<WORDS>, asked: &mut Request<W>, library: Library<W>) -> usize {
    let mut of = |library: Library<W>| {
        painted(stack, || {
            black_box(asked.put(black_box(&library)));
        })
    };
    of(library) - of(idle_library()) + 8
}

/// The functions' names, and the most that a call has taken.
type Most = BTreeMap<&'static str, usize>;

fn put<W: Form>(stacks: &mut Stacks, most: &mut Most, mut asked: Request<W>) {
    for _ in 0..asked.calls() {
        let bytes = match asked {
            Request::Facts { .. } | Request::Weave { .. } | Request::Stations { .. } => taken(&mut stacks.large, &mut asked, library()),
            _ => taken(&mut stacks.small, &mut asked, library()),
        };
        let before = most.entry(asked.function()).or_default();
        *before = bytes.max(*before);
    }
}

/// Rules with implies as deep as so many nodes allow, in the left operand, in the right one, and in turns: fifteen of 32 where each has a
/// test of its own, thirty-one where they share one. Each is decided as the rule, as the operand of a weak previous, and as a node that is
/// shared itself: there the last of thirty-one gives way.
fn deepest_rules<W: Form>(most: u8) -> Vec<Vec<W>> {
    let test = |k: u8| Node::new(1, k % 16, k.into(), 0, 0);
    let implies = |left: u8, right: u8| Node::new(3, 0, 0, left, right);
    let in_left: [fn(u8) -> bool; 3] = [|_| true, |_| false, |k| k % 2 == 0];
    let own_tests = in_left.map(|in_left| {
        let mut nodes = vec![test(0)];
        for k in 0..most / 2 - 1 {
            let inner = 2 * k;
            nodes.push(test(inner + 1));
            nodes.push(if in_left(k) { implies(inner, inner + 1) } else { implies(inner + 1, inner) });
        }
        nodes
    });
    let one_test = in_left.map(|in_left| {
        let mut nodes = vec![test(0)];
        nodes.extend((0..most - 1).map(|inner| if in_left(inner) { implies(inner, 0) } else { implies(0, inner) }));
        nodes
    });
    let alone = [own_tests, one_test].concat();
    let (below, deepest) = (most as usize - 1, most - 2);
    let under = |last: Node| alone.iter().map(move |nodes| [&nodes[..below], &[last]].concat());
    let all = under(Node::new(5, 0, 0, deepest, 0)).chain(under(implies(deepest, deepest))).chain(alone.clone());
    all.map(|nodes| nodes.iter().map(Node::encode_in).collect()).collect()
}

/// Every function for a rule: a bare script with two presents that becomes 1,024 lines, and those lines.
fn full_requests<W: Form>(rule: Vec<W>) -> Vec<Request<W>> {
    let block = check_rule_in(&rule).expect("a rule").block_lines();
    let mut bare = vec![4 << 28; 1024 - 2 * block - 1];
    bare.extend([8 << 28, 8 << 28, 7 << 28]);
    let mut out = vec![W::from(0); 8 * 1024];
    let mut numbers = [0; 22];
    assert_eq!(library().weave(&rule, &bare, &mut out, &mut numbers), 0);
    assert_eq!(numbers[1], 1024);
    let stripped = out.chunks(8).map(|line| Line::decode_annotated_in(line).word()).collect();
    let (rule, script) = (|| rule.clone(), || out.clone());
    let (inputs, history) = (|| vec![1; 5_000], || vec![0; 16 * 1_000]);
    // a fresh one, so that writes of registers that the rule tests work out whether it is ready
    let mut fresh = [0; STATE_NUMBERS];
    assert_eq!(library().fresh(&rule(), &mut fresh), 0);
    let (numbers, state) = (|| numbers.to_vec().into(), || fresh.to_vec().into());
    let moved = || vec![W::Other::from(0); 8 * 1024].into();
    let station = || Stationed { rule: rule(), script: script(), inputs: inputs(), history: history().into() };
    vec![
        Request::Rule { rule: rule(), numbers: numbers() },
        Request::Bare { rule: rule(), script: bare.clone(), numbers: numbers() },
        Request::Script { rule: rule(), script: script(), numbers: numbers() },
        Request::Weave { rule: rule(), bare, out: script().into(), numbers: numbers() },
        Request::Facts { rule: rule(), instructions: stripped, out: script().into(), numbers: numbers() },
        Request::Judge { rule: rule(), history: history(), numbers: numbers() },
        Request::Limits { rule: rule(), lows: history(), highs: vec![1; 16 * 1_000], out: vec![0; 1_000].into(), numbers: numbers() },
        Request::Run { rule: rule(), script: script(), inputs: inputs(), budget: 100_000, history: history().into(), numbers: numbers() },
        Request::Fresh { rule: rule(), state: state() },
        Request::Steps { rule: rule(), script: script(), inputs: inputs(), history: history().into(), state: state(), count: 2_000 },
        Request::Stations {
            states: vec![0; STATES_NUMBERS].into(),
            budget: 100_000,
            allowance: 1_000,
            stations: std::array::from_fn(|_| station()),
            numbers: numbers(),
        },
        Request::MoveRule { rule: rule(), out: moved(), numbers: numbers() },
        Request::MoveScript { rule: rule(), script: script(), out: moved(), numbers: numbers() },
    ]
}

/// Texts with as many words waiting for their operands as a table has room for, in ten thousand brackets or one each, and a number of a
/// thousand digits.
fn deepest_texts<W: Form>() -> Vec<Request<W>> {
    let (most, half) = (W::MOST_NODES - 1, W::MOST_NODES / 2 - 1);
    let many = |text: &str, times: usize| text.repeat(times);
    let texts = [
        format!("{}false", many("wprev ", most)),
        format!("{}false{}", many("wprev(", most), many(")", most)),
        format!("{}r1=1", many("r1=1 implies ", half)),
        format!("{}r1=1{}", many("(r1=1 since ", half), many(")", half)),
        format!("{}r1=1 or r2=2{}", many("(", 10_000), many(")", 10_000)),
        format!("{}r1=1", many("not ", 10_000)),
        format!("r1={}", many("9", 1_000)),
        "r1=1 implies r2=2 or r3=3 and r4=4 since not sofar false".into(),
    ];
    let out = || vec![W::from(0); W::MOST_NODES].into();
    texts.map(|text| Request::Text { text: text.into(), out: out(), numbers: vec![0; 2].into() }).into()
}

/// What the header says of a function.
fn stated(function: &str) -> usize {
    let header = include_str!("../../../include/guard.h");
    let name = stack_of(function);
    let (_, after) = header.split_once(&format!("{name} = ")).unwrap_or_else(|| panic!("{name}"));
    after.split(|c: char| !c.is_ascii_digit()).next().unwrap().parse().unwrap()
}

fn stack_of(function: &str) -> String {
    function.replace("guard_", "guard_stack_").to_uppercase()
}

/// The deepest rules and texts of a form, full scripts and random requests.
fn measure<W: Form>(stacks: &mut Stacks, most: &mut Most) {
    // in the second form also those that can move back
    for nodes in (32..=W::MOST_NODES).step_by(32) {
        for rule in deepest_rules::<W>(nodes as u8) {
            full_requests(rule).into_iter().for_each(|asked| put(stacks, most, asked));
        }
    }
    deepest_texts::<W>().into_iter().for_each(|asked| put(stacks, most, asked));
    println!("deepest rules and texts, full scripts: {most:?}");
    for n in 0..REQUESTS {
        put(stacks, most, request::<W>(3, n));
        if n % 8 == 0 {
            put(stacks, most, moving::<W>(3, n));
            put(stacks, most, stations::<W>(3, n));
            put(stacks, most, limits::<W>(3, n));
        }
    }
    println!("and random requests: {most:?}");
}

#[test]
fn stack_is_what_the_header_says() {
    let mut stacks = Stacks { small: Box::new(Stack([0; WORDS])), large: Box::new(Stack([0; LARGE_WORDS])) };
    let mut most = Most::new();
    measure::<u32>(&mut stacks, &mut most);
    measure::<u64>(&mut stacks, &mut most);
    assert_eq!(most.len(), 28);
    // as the header would have it
    for (function, bytes) in &most {
        println!("    {} = {},", stack_of(function), bytes.next_multiple_of(128));
    }
    for (function, bytes) in most {
        let (name, said) = (stack_of(function), stated(function));
        assert!(bytes <= said, "{name} says {said}, a call took {bytes}");
        assert!(said < bytes + 256, "{name} says {said}, no call took more than {bytes}");
    }
}

/// The measure itself: a function that fills a thousand bytes is seen to.
#[test]
fn thousand_bytes_are_seen() {
    unsafe extern "C" fn fill(_: *const u32, _: usize, _: *mut u64, _: usize) -> u32 {
        let bytes = black_box([1u8; 1000]);
        bytes[999] as u32
    }
    let filling = Library { rule: Function { name: "fill", call: fill }, ..library() };
    let mut asked = Request::Rule { rule: vec![], numbers: vec![].into() };
    let bytes = taken(&mut Box::new(Stack([0; WORDS])), &mut asked, filling);
    assert!((1000..2500).contains(&bytes), "{bytes}");
}

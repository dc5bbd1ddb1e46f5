//! The model of the receiver by itself: its two searches against each other, the laws of its fronts, worked examples,
//! and what a turning of the readings does. Every random case follows from the seed that its test prints; a failing one
//! says what to paste into `rig`.
#[allow(dead_code)]
mod cases;
#[allow(dead_code)]
mod lists;

use cases::good_numbers;
use lists::{agree, any_code, any_list, any_noise, rig_text, symbol_reading, turned, Answer, Call, Noise, Side, Walk};
use outside::model::front::turn_symbol;
use outside::model::receiver::{capacity, Told};
use outside::model::{Burst, Code, Engine, Front, Kind, Numbers, Paths, Receiver, Search};
use outside::random::Random;

const KINDS: [Kind; 2] = [Kind::Plain, Kind::Strike];

fn numbers(values: [u8; 5], h: [u16; 4]) -> Numbers {
    let [places, phases, offset, checked, memory] = values;
    Numbers { places, phases, offset, checked, memory, h }
}

/// `1 8 0 1 2 5 2 - -`, in which a label is its phase.
fn code_one() -> Numbers {
    numbers([1, 8, 0, 1, 2], [5, 2, 0, 0])
}

fn all_fronts() -> Vec<Front> {
    vec![
        Front::Table,
        Front::Strike,
        Front::lost(Front::Table),
        Front::lost(Front::Strike),
        Front::lost(Front::lost(Front::Table)),
        Front::lost(Front::lost(Front::lost(Front::Strike))),
    ]
}

/// The cells for a block of so many symbols.
fn cells_for(memory: u8, symbols: usize) -> usize {
    (symbols.max(usize::from(memory) + 1) + 1) << memory
}

fn clean_symbol(front: &Front, code: &Code, label: u16) -> Vec<u16> {
    let symbol = code.symbol(label);
    let used = symbol.phases[..usize::from(symbol.places)].iter();
    used.flat_map(|&phase| front.clean(code.numbers().phases.into(), phase.into()).expect("a phase")).collect()
}

#[test]
fn the_strike_front_by_hand() {
    let far = |distance: u32| 65_536 + distance;
    let worths = |phases: usize, word: u16| -> Vec<u32> {
        (0..=phases).map(|phase| Front::Strike.worth(phases, &[word], phase)).collect()
    };
    // The last is a phase that is none.
    assert_eq!(worths(8, 7), [1, 65_538, 65_539, 65_540, 65_539, 65_538, 1, 0, 0]);
    assert_eq!(worths(4, 1), [1, 0, 1, 65_538, 0]);
    assert_eq!(worths(4, 4), [0; 5]);
    assert_eq!(worths(16, 0)[7..10], [far(7), far(8), far(7)]);
    assert!(!Front::Strike.fit(8, &[8]) && !Front::Strike.fit(8, &[]) && !Front::Strike.fit(8, &[1, 1]));
    assert!(Front::Strike.fit(16, &[15]));
    let mut word = [7];
    Front::Strike.turn(8, &mut word);
    assert_eq!(word, [0]);
}

#[test]
fn the_table_front_and_the_layer_by_hand() {
    let layer = Front::lost(Front::Table);
    assert_eq!((Front::Table.width(4), layer.width(4), Front::lost(layer.clone()).width(16)), (4, 5, 18));
    let mut reading = [5, 6, 7, 65_535];
    assert_eq!(Front::Table.worth(4, &reading, 3), 65_535);
    Front::Table.turn(4, &mut reading);
    assert_eq!(reading, [65_535, 5, 6, 7]);
    let mut reading = [40, 3, 25, 70];
    Front::Table.turn(4, &mut reading);
    assert_eq!(reading, [70, 40, 3, 25]);
    assert_eq!(Front::Table.clean(4, 2), Some(vec![1, 1, 0, 1]));
    assert_eq!(layer.clean(4, 2), Some(vec![0, 1, 1, 0, 1]));
    assert_eq!((layer.clean(4, 4), Front::Strike.clean(4, 4)), (None, None));
    assert_eq!(Front::lost(Front::Strike).clean(16, 15), Some(vec![0, 15]));

    let lost = [1, 9, 9, 9, 9];
    assert!(layer.fit(4, &lost) && (0..4).all(|phase| layer.worth(4, &lost, phase) == 0));
    let mut turning = lost;
    layer.turn(4, &mut turning);
    assert_eq!(turning, lost);
    let unfit = [2, 9, 9, 9, 9];
    assert!(!layer.fit(4, &unfit) && layer.worth(4, &unfit, 0) == 0);
    // A lost place is fit whatever the front below would say, but not in another length.
    let strike = Front::lost(Front::Strike);
    assert!(strike.fit(8, &[1, 99]) && !strike.fit(8, &[0, 99]) && !strike.fit(8, &[1]) && !strike.fit(8, &[]));
    // The outer layer's word comes first.
    let twice = Front::lost(strike);
    assert_eq!((twice.worth(8, &[0, 0, 7], 1), twice.worth(8, &[0, 1, 7], 1)), (65_538, 0));
    assert!(!twice.fit(8, &[0, 2, 7]) && twice.fit(8, &[1, 2, 7]));
}

/// The laws of fronts at every number of phases that a byte can hold, for random readings.
#[test]
fn fronts_keep_their_laws() {
    let seed = 11;
    let mut random = Random::new(seed);
    let (mut fit, mut unfit) = (0, 0);
    for front in all_fronts() {
        for phases in 0..=255 {
            for phase in 0..phases {
                let clean = front.clean(phases, phase).expect("a phase");
                assert!(front.fit(phases, &clean));
                let none = (0..phases).filter(|&m| front.worth(phases, &clean, m) == 0);
                assert_eq!(none.collect::<Vec<_>>(), [phase], "{front:?}, {phases} phases");
                if phase > 4 && phases > 16 {
                    break;
                }
            }
            assert_eq!(front.clean(phases, phases), None);
            let width = front.width(phases);
            for _ in 0..20 {
                let length = if random.once_in(8) { random.below(2 * width + 3) } else { width };
                let reading: Vec<u16> = (0..length).map(|_| random.short() >> random.between(8, 16)).collect();
                let mut turned = reading.clone();
                front.turn(phases, &mut turned);
                let is_fit = front.fit(phases, &reading);
                assert!(length == width || !is_fit);
                assert_eq!(front.fit(phases, &turned), is_fit);
                let mut scores = vec![9; phases];
                if is_fit {
                    front.scores(&reading, &mut scores);
                    fit += 1;
                } else {
                    assert_eq!(turned, reading);
                    scores.fill(0);
                    unfit += 1;
                }
                for (m, &score) in scores.iter().enumerate() {
                    let worth = front.worth(phases, &reading, m);
                    assert_eq!(worth, score, "{front:?}, {phases} phases, {reading:?}");
                    assert!(worth <= 1_048_575);
                    let next = if is_fit { (m + 1) % phases } else { m };
                    assert_eq!(front.worth(phases, &turned, next), worth, "{front:?}, {phases} phases, {reading:?}");
                }
                assert_eq!(front.worth(phases, &reading, phases), 0);
            }
        }
    }
    println!("seed {seed}: {fit} fit readings, {unfit} unfit");
    assert!(fit > 5_000 && unfit > 5_000);
}

fn worked_examples<E: Engine>() {
    let clean = |phase: usize| Front::Table.clean(8, phase).expect("a phase");
    let mut receiver: Receiver<E> = Receiver::new(Kind::Plain, 24);
    assert_eq!(receiver.tell(), Err(21));
    assert_eq!(receiver.open(code_one()), Ok(5));
    assert_eq!(receiver.tell(), Ok(Told { count: 0, worth: 0, sole: false }));
    for phase in [4, 2, 3, 5] {
        assert_eq!(receiver.take(0, &clean(phase)), Ok(()));
    }
    assert_eq!(receiver.tell(), Ok(Told { count: 4, worth: 0, sole: true }));
    let mut words = [9; 5];
    let said = receiver.deliver(&mut words).expect("a path");
    assert_eq!((said.count, said.sole, words), (3, true, [3, 1, 2, 9, 9]));

    // As sent, and turned by 4, by the strike front too; turned by 2 it is no path.
    for (phases, path) in [([0, 6, 7, 1], true), ([4, 2, 3, 5], true), ([2, 0, 1, 3], false)] {
        for kind in KINDS {
            let number = if kind == Kind::Plain { 0 } else { 1 };
            let front = Front::numbered(number).expect("a front");
            let mut receiver: Receiver<E> = Receiver::new(kind, 20);
            receiver.open(code_one()).expect("enough cells");
            for phase in phases {
                receiver.take(number, &front.clean(8, phase).expect("a phase")).expect("room");
            }
            let told = receiver.tell().expect("open");
            assert_eq!(told.worth == 0, path, "{phases:?}");
            let mut words = [0; 3];
            receiver.deliver(&mut words).expect("a path");
            assert!(!path || words == [3, 1, 2]);
        }
    }

    // Three labels 0 are a path, three labels 2 are none, two are.
    for (phases, worth) in [(vec![0, 0, 0], 0), (vec![2, 2, 2], 1), (vec![2, 2], 0)] {
        let mut receiver: Receiver<E> = Receiver::new(Kind::Plain, 16);
        receiver.open(code_one()).expect("enough cells");
        for &phase in &phases {
            receiver.take(0, &clean(phase)).expect("room");
        }
        assert_eq!(receiver.tell().map(|told| told.worth), Ok(worth), "{phases:?}");
    }

    // A tie whose words change when the readings are turned by 4.
    for (turns, word) in [(0, 0), (4, 2)] {
        let mut receiver: Receiver<E> = Receiver::new(Kind::Plain, 16);
        receiver.open(code_one()).expect("enough cells");
        for mut reading in [[0, 1, 1, 1, 1, 1, 1, 1], [0, 1, 1, 1, 0, 1, 1, 1]] {
            reading.rotate_right(turns);
            receiver.take(0, &reading).expect("room");
        }
        let mut words = [9];
        let said = receiver.deliver(&mut words).expect("a path");
        assert_eq!((said.count, said.sole, words), (1, false, [word]));
        assert_eq!(receiver.tell(), Ok(Told { count: 2, worth: 0, sole: false }));
    }

    // A last symbol that is read one phase too far costs 1: 0, 6, 7, 1 and 0, 6, 7, 3 are paths, so two have that worth.
    let mut receiver: Receiver<E> = Receiver::new(Kind::Strike, 20);
    receiver.open(code_one()).expect("enough cells");
    for phase in [0, 6, 7, 2] {
        receiver.take(1, &[phase]).expect("room");
    }
    assert_eq!(receiver.tell(), Ok(Told { count: 4, worth: 1, sole: false }));

    let four = numbers([4, 4, 3, 3, 3], [0o11, 0o3, 0o4, 0o2]);
    let mut receiver: Receiver<E> = Receiver::new(Kind::Strike, 40);
    assert_eq!(receiver.open(four), Ok(4));
    // Words 9 and 6, turned by one phase.
    for reading in [[1, 1, 1, 1], [0, 0, 0, 2], [0, 2, 2, 0]] {
        receiver.take(1, &reading).expect("room");
    }
    let mut words = [0; 2];
    assert_eq!(receiver.deliver(&mut words).map(|said| said.count), Ok(2));
    assert_eq!((words, receiver.tell().map(|told| told.worth)), ([9, 6], Ok(0)));
}

#[test]
fn the_worked_examples() {
    worked_examples::<Paths>();
    worked_examples::<Search>();
}

#[test]
fn capacities_and_cells() {
    let open = |numbers: Numbers, cells: usize| Receiver::<Search>::new(Kind::Plain, cells).open(numbers);
    assert_eq!((open(code_one(), 15), open(code_one(), 16)), (Err(20), Ok(3)));
    assert_eq!((open(code_one(), 19), open(code_one(), 20)), (Ok(3), Ok(4)));
    assert_eq!((open(code_one(), 1027), open(code_one(), 1028), open(code_one(), 99_999)), (Ok(255), Ok(256), Ok(256)));
    let eight = numbers([1, 8, 0, 2, 8], [0o573, 0o210, 0o146, 0]);
    assert_eq!((open(eight, 2559), open(eight, 2560), open(eight, 65_792)), (Err(20), Ok(9), Ok(256)));
    let one = numbers([1, 8, 0, 1, 1], [3, 1, 0, 0]);
    assert_eq!((open(one, 5), open(one, 6), open(one, 0)), (Err(20), Ok(2), Err(20)));
    let table = [
        (6, 514),
        (16, 1_028),
        (40, 2_056),
        (96, 4_112),
        (224, 8_224),
        (512, 16_448),
        (1_152, 32_896),
        (2_560, 65_792),
    ];
    for (memory, (least, full)) in (1..=8).zip(table) {
        let code = numbers([2, 4, 0, 1, memory], [(1 << memory) + 1, 1, 0, 0]);
        let symbols = u16::from(memory) + 1;
        assert_eq!((open(code, least - 1), open(code, least)), (Err(20), Ok(symbols)));
        assert_eq!((open(code, full - 1), open(code, full), open(code, 2 * full)), (Ok(255), Ok(256), Ok(256)));
    }
    assert_eq!(open(numbers([3, 8, 0, 1, 1], [3, 1, 0, 0]), 0), Err(3));
    assert_eq!(open(numbers([1, 8, 0, 1, 1], [2, 1, 0, 0]), 0), Err(4));
    assert_eq!(open(numbers([2, 4, 1, 1, 2], [5, 2, 0, 0]), 0), Err(5));
    assert_eq!((capacity(0, 8), capacity(255, 8), capacity(256, 8)), (0, 0, 0));
}

/// Each refusal, each in front of the next in its call's order, and that a refused call changes nothing.
#[test]
fn refusals_in_order() {
    let mut receiver: Receiver<Search> = Receiver::new(Kind::Plain, 16);
    let clean = |phase: usize| Front::Table.clean(8, phase).expect("a phase");
    let long = [0; 9];
    let mut none: [u16; 0] = [];
    // A front of the other kind or none, before no block.
    for number in [1, 3, 4, 255] {
        assert_eq!(receiver.take(number, &long), Err(253));
    }
    assert_eq!(receiver.take(0, &long), Err(21));
    assert_eq!((receiver.tell(), receiver.deliver(&mut none)), (Err(21), Err(21)));
    assert_eq!(receiver.open(numbers([1, 8, 0, 1, 3], [9, 2, 0, 0])), Err(20));
    assert_eq!(receiver.tell(), Err(21));

    assert_eq!(receiver.open(code_one()), Ok(3));
    assert_eq!(receiver.take(2, &[2; 10]), Err(8));
    assert_eq!(receiver.take(2, &[2; 9]), Err(9));
    assert_eq!(receiver.take(0, &[2; 9]), Err(8));
    assert_eq!(receiver.deliver(&mut none), Err(23));
    receiver.take(0, &clean(0)).expect("room");
    assert_eq!(receiver.deliver(&mut none), Err(23));
    receiver.take(2, &[1; 9]).expect("room");
    assert_eq!(receiver.deliver(&mut none), Err(10));
    receiver.take(0, &clean(7)).expect("room");
    assert_eq!(receiver.deliver(&mut [0]), Err(10));
    // Full, before the reading is looked at.
    assert_eq!(receiver.take(2, &[2; 10]), Err(22));
    assert_eq!(receiver.take(1, &[2; 10]), Err(253));
    let told = receiver.tell();
    assert_eq!(told.map(|told| told.count), Ok(3));
    // A refused open keeps the block, an open that is not refused drops it.
    assert_eq!(receiver.open(numbers([1, 8, 0, 1, 3], [9, 2, 0, 0])), Err(20));
    assert_eq!(receiver.open(numbers([1, 8, 0, 1, 0], [9, 2, 0, 0])), Err(3));
    assert_eq!(receiver.tell(), told);
    assert_eq!(receiver.open(code_one()), Ok(3));
    assert_eq!(receiver.tell(), Ok(Told { count: 0, worth: 0, sole: false }));
}

/// Plays a list on two receivers and compares all answers and buffers.
fn play_both(one: &mut impl Side, other: &mut impl Side, calls: &[Call], about: &str, kind: Kind, cells: usize) {
    for (i, call) in calls.iter().enumerate() {
        let (first, second) = (one.call(call), other.call(call));
        if first != second {
            let text = rig_text(kind, cells, &calls[..=i]);
            panic!("{about}, {call:?}: by all paths {first:?}, by survivors {second:?}\n{text}");
        }
    }
}

/// Every path against survivors: small codes, few symbols, ties and lost places.
#[test]
fn all_paths_against_survivors() {
    let seed = 12;
    let mut random = Random::new(seed);
    let (mut symbols, mut ties, mut soles, mut lost_all) = (0, 0, 0, 0);
    for case in 0..6_000 {
        let code = any_code(&mut random, 5, 3);
        let made = Code::new(code).expect("a code");
        // Not over about 16,000 paths.
        let most = (14 - usize::from(code.memory)) / (made.width() - 1);
        let count = random.between(1, most.clamp(1, 6));
        let kind = random.pick(&KINDS);
        let cells = cells_for(code.memory, count);
        let noise = any_noise(&mut random);
        let mut walk = Walk::new(&mut random, &made);
        let mut calls = vec![Call::Open(code), Call::Tell];
        for _ in 0..count {
            let number = random.pick(&lists::fronts_of(kind));
            let front = Front::numbered(number).expect("a front");
            let label = walk.next(&mut random, &made);
            calls.push(Call::Take(number, symbol_reading(&mut random, &front, &made, label, noise)));
        }
        calls.extend([Call::Tell, Call::Deliver(count + 1)]);
        let mut paths: Receiver<Paths> = Receiver::new(kind, cells);
        let mut search: Receiver<Search> = Receiver::new(kind, cells);
        play_both(&mut paths, &mut search, &calls, &format!("seed {seed}, case {case}"), kind, cells);
        let told = search.tell().expect("open");
        symbols += count;
        ties += usize::from(!told.sole);
        soles += usize::from(told.sole);
        lost_all += usize::from(!told.sole && told.worth == 0);
    }
    println!("seed {seed}: {symbols} symbols; {soles} sole paths, {ties} ties, {lost_all} of them of worth 0");
    assert!(ties > 1_000 && soles > 1_000 && lost_all > 100);
}

/// Each of the 21 signal sets with each count of checked bits: one symbol, all its labels, ties and all.
#[test]
fn one_symbol_of_every_signal_set() {
    let seed = 13;
    let mut random = Random::new(seed);
    let mut tried = 0;
    for places in [1, 2, 4] {
        for phases in [4, 8, 16] {
            for offset in 0..places {
                for checked in 1..=3 {
                    let memory = random.between(1, 2) as u8;
                    let Some(code) = good_numbers(&mut random, places, phases, offset, checked, memory) else {
                        continue;
                    };
                    let made = Code::new(code).expect("a code");
                    for kind in KINDS {
                        for noise in [Noise::Errors, Noise::Ties, Noise::Wild] {
                            let number = random.pick(&lists::fronts_of(kind));
                            let front = Front::numbered(number).expect("a front");
                            let reading = symbol_reading(&mut random, &front, &made, 0, noise);
                            let mut paths: Receiver<Paths> = Receiver::new(kind, 64);
                            let mut search: Receiver<Search> = Receiver::new(kind, 64);
                            let calls = [Call::Open(code), Call::Take(number, reading), Call::Tell];
                            play_both(&mut paths, &mut search, &calls, &format!("seed {seed}"), kind, 64);
                            tried += 1;
                        }
                    }
                }
            }
        }
    }
    println!("seed {seed}: {tried} symbols");
    assert!(tried > 300);
}

/// A burst that the model sends and that is read clean comes back, by every front, turned by multiples of the step too.
#[test]
fn clean_bursts_come_back() {
    let seed = 14;
    let mut random = Random::new(seed);
    let (mut words_back, mut short, mut full) = (0, 0, 0);
    for case in 0..600 {
        let code = any_code(&mut random, if case % 20 == 0 { 16 } else { 8 }, 8);
        let made = Code::new(code).expect("a code");
        let count = match random.below(16) {
            0 if made.width() <= 6 => 255,
            _ => random.between(1, 20),
        };
        let words: Vec<u16> = (0..count).map(|_| random.below(1 << (made.width() - 1)) as u16).collect();
        let (mut burst, reference) = Burst::begin(made);
        let mut symbols = vec![reference];
        symbols.extend(words.iter().map(|&word| burst.send(word).expect("a word")));
        let front = &all_fronts()[random.below(6)];
        let turns = random.below(16 / usize::from(made.step()).min(16)) * usize::from(made.step());
        let cells = cells_for(code.memory, count + 1);
        let mut receiver: Receiver<Search> = Receiver::new(front.kind(), cells);
        receiver.open_code(made).expect("enough cells");
        for symbol in &symbols {
            let phases = usize::from(code.phases);
            let places = usize::from(code.places);
            let mut reading: Vec<u16> = symbol.phases[..places]
                .iter()
                .flat_map(|&phase| front.clean(phases, phase.into()).expect("a phase"))
                .collect();
            turn_symbol(front, places, phases, turns, &mut reading);
            receiver.take_through(front, &reading).expect("room");
        }
        let told = receiver.tell().expect("open");
        let mut back = vec![0; count];
        let said = receiver.deliver(&mut back).expect("a path");
        let about = format!("seed {seed}, case {case}, {code:?}, {front:?}, turned by {turns}, words {words:?}");
        assert_eq!((usize::from(said.count), &back, told.worth), (count, &words, 0), "{about}");
        // v symbols fix the start state; fewer leave starts that lead through the same labels.
        assert_eq!(said.sole, count + 1 >= usize::from(code.memory), "{about}");
        assert_eq!(said.sole, told.sole);
        words_back += count;
        short += usize::from(!said.sole);
        full += usize::from(count == 255);
    }
    println!("seed {seed}: {words_back} words came back, {short} bursts too short for a sole path, {full} full bursts");
    assert!(words_back > 5_000 && short > 10 && full > 3);
}

/// Two receivers, the same calls, readings turned by `t` and by `u`: the answers of each.
fn play_turned(kind: Kind, cells: usize, calls: &[Call], t: usize, u: usize) -> Vec<(Answer, Answer)> {
    let mut one: Receiver<Search> = Receiver::new(kind, cells);
    let mut other: Receiver<Search> = Receiver::new(kind, cells);
    let answers = calls.iter().map(|call| {
        let first = one.call(&turned(call, one.code().cloned().as_ref(), t));
        let second = other.call(&turned(call, other.code().cloned().as_ref(), u));
        (first, second)
    });
    answers.collect()
}

/// Where the step of each code divides the difference of the turnings, all answers agree.
#[test]
fn equal_turnings_are_not_noticed() {
    let seed = 15;
    let mut random = Random::new(seed);
    let (mut calls_made, mut refused, mut delivered, mut other_words) = (0, [0; 256], 0, 0);
    for case in 0..6_000 {
        let kind = random.pick(&KINDS);
        let codes: Vec<Numbers> = (0..random.between(1, 3)).map(|_| any_code(&mut random, 8, 4)).collect();
        let step = codes.iter().map(|&code| usize::from(Code::new(code).expect("a code").step())).max().expect("one");
        let (t, u) = loop {
            let (t, u) = (random.below(16), random.below(16));
            if t % step == u % step && (t != u || step == 16) {
                break (t, u);
            }
        };
        let cells = lists::any_cells(&mut random, &codes);
        let length = random.between(4, 24);
        let calls = any_list(&mut random, kind, cells, &codes, length);
        for (i, (first, second)) in play_turned(kind, cells, &calls, t, u).iter().enumerate() {
            if !agree(first, second) {
                let text = rig_text(kind, cells, &calls[..=i]);
                panic!("seed {seed}, case {case}: turned by {t} {first:?}, by {u} {second:?}\nunturned, {text}");
            }
            calls_made += 1;
            if let Answer::Refused(number) = first {
                refused[usize::from(*number)] += 1;
            }
            delivered += usize::from(matches!(first, Answer::Delivered { sole: true, .. }));
            other_words += usize::from(first != second);
        }
    }
    println!(
        "seed {seed}: {calls_made} calls agree, {delivered} deliveries of sole paths; {other_words} deliveries of paths \
         that are not sole have other words"
    );
    for number in [3, 4, 5, 8, 9, 10, 20, 21, 22, 23, 253] {
        println!("refused {number}: {}", refused[number]);
        assert!(refused[number] > 100);
    }
    assert!(delivered > 1_000 && other_words > 100);
}

/// Where the step does not divide it, v + 1 clean symbols tell the receivers apart, by every front. The symbols are sought
/// at random: a path for the one receiver, which is none for the other about every second time.
#[test]
fn unequal_turnings_are_noticed() {
    let seed = 16;
    let mut random = Random::new(seed);
    let (mut told_apart, mut tries) = (0, 0);
    for case in 0..1_500 {
        let code = any_code(&mut random, 8, if case % 8 == 0 { 8 } else { 4 });
        let made = Code::new(code).expect("a code");
        let (step, phases) = (usize::from(made.step()), usize::from(code.phases));
        let (t, u) = (random.below(16), random.below(16));
        if t % step == u % step {
            continue;
        }
        let kind = random.pick(&KINDS);
        let number = random.pick(&lists::fronts_of(kind));
        let front = Front::numbered(number).expect("a front");
        let cells = cells_for(code.memory, 0);
        let found = (0..64).any(|_| {
            tries += 1;
            let mut walk = Walk::new(&mut random, &made);
            let mut calls = vec![Call::Open(code)];
            for _ in 0..=code.memory {
                // Turned back by t, so that the first receiver reads a path.
                let mut reading = clean_symbol(&front, &made, walk.next(&mut random, &made));
                turn_symbol(&front, code.places.into(), phases, 16 * phases - t, &mut reading);
                calls.push(Call::Take(number, reading));
            }
            calls.push(Call::Tell);
            let answers = play_turned(kind, cells, &calls, t, u);
            let (Answer::Told { worth: first, .. }, Answer::Told { worth: second, .. }) = answers[answers.len() - 1]
            else {
                panic!("seed {seed}, case {case}: {answers:?}\n{}", rig_text(kind, cells, &calls));
            };
            assert_eq!(first, 0, "seed {seed}, case {case}\n{}", rig_text(kind, cells, &calls));
            second != 0
        });
        assert!(found, "seed {seed}, case {case}: {code:?}, {front:?}, turned by {t} and {u}");
        told_apart += 1;
    }
    println!("seed {seed}: {told_apart} pairs of turnings told apart, {tries} lists tried");
    assert!(told_apart > 700);
}

/// A receiver's answers as c/receive.c prints them.
fn printed(receiver: &Receiver<Search>, words: usize) -> String {
    let told = receiver.tell().expect("an open block");
    let mut buffer = vec![0; words];
    receiver.deliver(&mut buffer).expect("symbols and room");
    let sole = if told.sole { "sole" } else { "not sole" };
    let words: String = buffer.iter().map(|word| format!(" {word}")).collect();
    format!(": {} symbols, worth {}, {sole}; words{words}\n", told.count, told.worth)
}

/// What c/receive.c has to print, worked out by the model alone.
#[test]
fn the_output_of_the_c_program() {
    let words = [3, 1, 2, 0, 3];
    let code = Code::new(code_one()).expect("a code");
    let (mut burst, reference) = Burst::begin(code);
    let mut phases = vec![u16::from(reference.phases[0])];
    phases.extend(words.map(|word| u16::from(burst.send(word).expect("a narrow word").phases[0])));
    let listed: String = phases.iter().map(|phase| format!(" {phase}")).collect();
    let mut text = format!("step {} of 8 phases; sent {} words as phases{listed}\n", code.step(), burst.end());
    let cells = cells_for(2, phases.len());
    for times in [0, 4, 2] {
        let mut receiver: Receiver<Search> = Receiver::new(Kind::Plain, cells);
        assert_eq!(receiver.open(code_one()), Ok(6));
        let mut reading = Vec::new();
        for &phase in &phases {
            reading = Front::Table.clean(8, phase.into()).expect("a phase");
            (0..times).for_each(|_| Front::Table.turn(8, &mut reading));
            receiver.take(0, &reading).expect("a clean reading");
        }
        text += &format!("turned by {times}{}", printed(&receiver, words.len()));
        text += &format!("one symbol more: refused {}\n", receiver.take(0, &reading).unwrap_err());
        text += &format!("a buffer of 4 words: refused {}\n", receiver.deliver(&mut [0; 4]).unwrap_err());
    }
    let mut receiver: Receiver<Search> = Receiver::new(Kind::Strike, cells);
    text += &format!("before the open: refused {}\n", receiver.tell().unwrap_err());
    receiver.open(code_one()).expect("enough cells");
    for (i, &phase) in phases.iter().enumerate() {
        receiver.take(3, &[u16::from(i == 2), phase]).expect("a fit reading");
    }
    text += &format!("symbol 2 lost{}", printed(&receiver, words.len()));
    assert_eq!(text, include_str!("../../c/receive.out"));
}

/// The numbers and fronts that the header names for the receiver, beside what the model answers to a call that provokes
/// them. No call provokes 24.
#[test]
fn the_receivers_numbers_of_the_header() {
    let header = include_str!("../../include/kamzhules.h");
    let mut open: Receiver<Search> = Receiver::new(Kind::Plain, 16);
    open.open(code_one()).expect("enough cells");
    let mut full: Receiver<Search> = Receiver::new(Kind::Plain, 16);
    full.open(code_one()).expect("enough cells");
    for _ in 0..3 {
        full.take(0, &[0; 8]).expect("room");
    }
    let mut closed: Receiver<Search> = Receiver::new(Kind::Plain, 15);
    let mut tried = 0;
    for line in header.lines() {
        let mut words = line.split_whitespace();
        if words.next() != Some("#define") {
            continue;
        }
        let (Some(name), Some(value)) = (words.next(), words.next()) else { continue };
        let number = match name {
            "KZ_LENGTH" => open.take(0, &[0; 7]).unwrap_err(),
            "KZ_UNFIT" => open.take(2, &[7; 9]).unwrap_err(),
            "KZ_ROOM" => full.deliver(&mut [0]).unwrap_err(),
            "KZ_CELLS" => closed.open(code_one()).unwrap_err(),
            "KZ_CLOSED" => closed.tell().unwrap_err(),
            "KZ_BLOCK_FULL" => full.take(0, &[0; 8]).unwrap_err(),
            "KZ_SHORT" => open.deliver(&mut [0]).unwrap_err(),
            "KZ_NO_PATH" => 24,
            "KZ_NO_FRONT" => full.take(1, &[0]).unwrap_err(),
            "KZ_TABLE" | "KZ_STRIKE" | "KZ_LOST_TABLE" | "KZ_LOST_STRIKE" => {
                let front = match name {
                    "KZ_TABLE" => Front::Table,
                    "KZ_STRIKE" => Front::Strike,
                    "KZ_LOST_TABLE" => Front::lost(Front::Table),
                    _ => Front::lost(Front::Strike),
                };
                (0..=255).find(|&number| Front::numbered(number) == Some(front.clone())).expect("a number")
            }
            _ => continue,
        };
        assert_eq!(Ok(number), value.parse(), "{name}");
        tried += 1;
    }
    assert_eq!(tried, 13);
}

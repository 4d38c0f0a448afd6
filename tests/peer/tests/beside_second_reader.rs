//! The peer beside the second reader: equal numbers, places, answers and preferred files.

use second_reader::generate::{
    damaged, damaged_dictionary, dictionary, instants, local_times, names, plan, random_content, random_entries,
    Damage, FileContent, Forms, Prng, Size,
};
use second_reader::locations::LocationField;
use second_reader::transition::{Transition, FIRST, LAST};
use second_reader::{Edition, Mark, Refusal};
use std::collections::BTreeSet;
use std::ops::Range;

type Pair = (u8, usize);

fn pair(refusal: Refusal) -> Pair {
    (refusal.number.value(), refusal.place as usize)
}

fn peer_pair(refusal: peer::Refusal) -> Pair {
    (refusal.number, refusal.place)
}

fn ticks_of(bound: Transition) -> i64 {
    match bound {
        Transition::StartOfTime => i64::MIN,
        Transition::Finite(ticks) => ticks,
        Transition::EndOfTime => i64::MAX,
    }
}

/// The numbers that came up, by the whole-file functions, by questions and by locations.
#[derive(Default)]
struct Seen {
    whole: BTreeSet<u8>,
    asked: BTreeSet<u8>,
    named: BTreeSet<u8>,
    local: BTreeSet<u8>,
    located: BTreeSet<u8>,
}

/// What an answer of the second reader carries, or its refusal.
type Said = Result<([i64; 3], Range<usize>, i64, i64), Pair>;

fn expected(answer: Result<second_reader::Answer, Refusal>) -> Said {
    answer
        .map(|answer| {
            let (start, end) = (ticks_of(answer.start), ticks_of(answer.end));
            ([answer.wall, answer.savings, answer.standard].map(i64::from), answer.name, start, end)
        })
        .map_err(pair)
}

/// The same of the peer. The name is a part of the file: where it stands is what is compared.
fn given(file: &[u8], answer: Result<peer::Answer<'_>, peer::Refusal>) -> Said {
    answer
        .map(|answer| {
            let place = answer.name.as_ptr() as usize - file.as_ptr() as usize;
            let name = place..place + answer.name.len();
            let offsets = [answer.wall_offset_ms, answer.savings_ms, answer.standard_offset_ms];
            (offsets, name, answer.start, answer.end)
        })
        .map_err(peer_pair)
}

fn number_of(said: &Said) -> u8 {
    said.as_ref().map_or_else(|refusal| refusal.0, |_| 0)
}

fn same_question(file: &[u8], id: &[u8], ticks: i64, seen: &mut Seen) {
    let shown = &file[..file.len().min(2000)];
    for (mark, edition) in [
        (Mark::MoreMayCome, Edition::One),
        (Mark::ThisIsAll, Edition::One),
        (Mark::MoreMayCome, Edition::Two),
        (Mark::ThisIsAll, Edition::Two),
    ] {
        let (more, first) = (mark == Mark::MoreMayCome, edition == Edition::One);
        let asked = expected(second_reader::ask(file, id, ticks, mark, edition));
        seen.asked.insert(number_of(&asked));
        let ours = given(file, peer::ask(file, id, ticks, more, first));
        assert_eq!(ours, asked, "{shown:02x?}, {id:?} at {ticks}, {mark:?}, {edition:?}");
        // A zone is found without an instant, so that one out of range is told of later.
        if !more && (FIRST..=LAST).contains(&ticks) {
            let ours = given(file, peer::Zone::find(file, id).and_then(|zone| zone.ask(ticks, first)));
            assert_eq!(ours, asked, "{shown:02x?}, {id:?} found and asked at {ticks}, {edition:?}");
            same_places(file, id, ticks, first, &asked);
        }
        let named = expected(second_reader::ask_named(file, id, ticks, mark, edition));
        seen.named.insert(number_of(&named));
        let ours = given(file, peer::ask_named(file, id, ticks, more, first));
        assert_eq!(ours, named, "{shown:02x?}, the name {id:?} at {ticks}, {mark:?}, {edition:?}");
    }
}

/// The same of a plain value, and over tables of its answers.
fn same_places(file: &[u8], id: &[u8], ticks: i64, first: bool, asked: &Said) {
    let shown = &file[..file.len().min(2000)];
    let found = peer::Places::find(file, id);
    let ours = given(file, found.and_then(|places| places.ask(file, ticks, first)));
    assert_eq!(&ours, asked, "{shown:02x?}, {id:?} found as places and asked at {ticks}");
    let Ok(places) = found else { return };
    let mut rows = [0; 3 * 7 + 6];
    for from in [ticks, FIRST] {
        let count = places.list(file, from, first, &mut rows).expect("rows");
        let ours = given(file, places.ask_listed(file, &rows[..7 * count], ticks, first));
        assert_eq!(&ours, asked, "{shown:02x?}, {id:?} over {count} rows from {from} at {ticks}");
    }
    assert_eq!(places.list(file, ticks, first, &mut rows[..6]), Err(peer::Refusal { number: 15, place: 0 }));
}

fn same_local(file: &[u8], id: &[u8], local: i64, seen: &mut Seen) {
    let expected = second_reader::map_local(file, id, local)
        .map(|found| (found.count as u32, found.earliest, found.latest))
        .map_err(pair);
    let given =
        peer::map_local(file, id, local).map(|found| (found.count, found.earliest, found.latest)).map_err(peer_pair);
    seen.local.insert(expected.as_ref().map_or_else(|refusal| refusal.0, |_| 0));
    assert_eq!(given, expected, "{:02x?}, {id:?} at local time {local}", &file[..file.len().min(2000)]);
    let given = peer::Places::find(file, id).and_then(|places| places.map_local(file, local));
    let given = given.map(|found| (found.count, found.earliest, found.latest)).map_err(peer_pair);
    assert_eq!(given, expected, "{:02x?}, {id:?} found, at local time {local}", &file[..file.len().min(2000)]);
}

/// Local times of every zone, and of none.
fn locals(content: &FileContent, prng: &mut Prng, most: usize) -> Vec<(Vec<u8>, i64)> {
    let mut asked = vec![(b"No/Such_Zone".to_vec(), 0), (Vec::new(), i64::MIN)];
    for zone in &content.zones {
        let mut all = local_times(zone, prng);
        while all.len() > most {
            all.swap_remove(prng.below(all.len()));
        }
        asked.extend(all.into_iter().map(|local| (content.id(zone).to_vec(), local)));
    }
    asked
}

fn same_whole(file: &[u8], seen: &mut Seen) {
    let shown = &file[..file.len().min(2000)];
    let text = second_reader::version_text(file).map(|part| &file[part]).map_err(pair);
    assert_eq!(peer::version_text(file).map_err(peer_pair), text, "version text of {shown:02x?}");
    seen.whole.insert(text.map_or_else(|refusal| refusal.0, |_| 0));
    let preferred = second_reader::rewrite::preferred(file).map(|file| file.len());
    let length = preferred.unwrap_or(file.len());
    for room in [length, length.saturating_sub(1), 0, 4, file.len() + 3] {
        let (mut wanted, mut out) = (vec![0xaa; room], vec![0xaa; room]);
        let expected = second_reader::normalize(file, &mut wanted).map_err(pair);
        assert_eq!(peer::normalize(file, &mut out).map_err(peer_pair), expected, "normalized {shown:02x?}");
        assert!(out == wanted, "normalized {shown:02x?} with room for {room}");
        seen.whole.insert(expected.map_or_else(|refusal| refusal.0, |_| 0));
    }
}

/// Every location of fields 6 and 7, and one past the last.
fn same_locations(file: &[u8], seen: &mut Seen) {
    for field in [LocationField::Zone, LocationField::Zone1970] {
        for number in 0.. {
            let expected = second_reader::locations::location(file, field, number).map_err(pair).map(|found| {
                let text = |part: Range<usize>| &file[part];
                let countries: Vec<_> =
                    found.countries.into_iter().map(|(name, code)| (text(name), text(code))).collect();
                let pin = [found.latitude.to_bits(), found.longitude.to_bits()];
                (pin, text(found.zone), text(found.comment), countries)
            });
            let given = peer::location(file, field.id(), number).map_err(peer_pair).map(|found| {
                let pin = [found.latitude.to_bits(), found.longitude.to_bits()];
                (pin, found.zone, found.comment, found.countries.collect::<Vec<_>>())
            });
            let refusal = expected.as_ref().err().map_or(0, |refusal| refusal.0);
            seen.located.insert(refusal);
            assert_eq!(given, expected, "location {number} of {field:?} in {:02x?}", &file[..file.len().min(2000)]);
            if refusal != 0 {
                break;
            }
        }
    }
}

fn questions(content: &FileContent, prng: &mut Prng, most: usize) -> Vec<(Vec<u8>, i64)> {
    let mut asked =
        vec![(b"No/Such_Zone".to_vec(), 0), (Vec::new(), LAST), (Vec::new(), LAST + 1), (vec![], FIRST - 1)];
    for zone in &content.zones {
        let mut all = instants(zone, prng);
        while all.len() > most {
            all.swap_remove(prng.below(all.len()));
        }
        asked.extend(all.into_iter().map(|ticks| (content.id(zone).to_vec(), ticks)));
    }
    asked.extend(names(content, prng).into_iter().map(|name| (name, 0)));
    asked
}

#[test]
fn generated_files() {
    let mut seen = Seen::default();
    for seed in 0..3000 {
        let mut prng = Prng::new(seed);
        let size = if seed % 4 == 0 { Size::Any } else { Size::Small };
        let content = random_content(&mut prng, size);
        let whole = plan(&content, &mut Forms::Any(&mut prng));
        let good = whole.bytes();
        let kind = *prng.pick(&Damage::ALL);
        let bad = damaged(&whole, kind, &mut prng);
        for file in [&good, &bad] {
            same_whole(file, &mut seen);
            same_locations(file, &mut seen);
            for (id, ticks) in questions(&content, &mut prng, 40) {
                same_question(file, &id, ticks, &mut seen);
            }
            for (id, local) in locals(&content, &mut prng, 20) {
                same_local(file, &id, local, &mut seen);
            }
        }
    }
    assert_eq!(seen.local, BTreeSet::from([0, 2, 3, 4, 5, 6, 7, 8, 9, 10, 11, 12, 17]));
    assert_eq!(seen.whole, BTreeSet::from([0, 2, 3, 4, 5, 6, 7, 8, 9, 10, 11, 12, 13, 15, 19, 20]));
    assert_eq!(seen.located, BTreeSet::from([0, 2, 3, 4, 5, 6, 7, 8, 9, 10, 11, 12, 13, 19, 20]));
    assert_eq!(seen.asked, BTreeSet::from([0, 1, 2, 3, 4, 5, 6, 7, 8, 9, 10, 11, 12, 14]));
    assert_eq!(seen.named, BTreeSet::from([0, 1, 2, 3, 4, 5, 6, 7, 8, 9, 10, 11, 12, 14, 18, 19]));
}

#[test]
fn every_prefix() {
    let mut seen = Seen::default();
    for seed in 5000..5200 {
        let mut prng = Prng::new(seed);
        let content = random_content(&mut prng, Size::Small);
        let whole = plan(&content, &mut Forms::Any(&mut prng));
        let kind = *prng.pick(&Damage::ALL);
        for file in [whole.bytes(), damaged(&whole, kind, &mut prng)] {
            let asked = questions(&content, &mut prng, 2);
            let local = locals(&content, &mut prng, 2);
            for length in 0..=file.len().min(2000) {
                let part = &file[..length];
                same_whole(part, &mut seen);
                for (id, ticks) in &asked {
                    same_question(part, id, *ticks, &mut seen);
                }
                for (id, ticks) in &local {
                    same_local(part, id, *ticks, &mut seen);
                }
            }
        }
    }
}

#[test]
fn realistic_files() {
    let mut seen = Seen::default();
    for name in ["all.nzd", "europe.nzd"] {
        let file = std::fs::read(format!("{}/../data/{name}", env!("CARGO_MANIFEST_DIR"))).expect("a realistic file");
        same_whole(&file, &mut seen);
        let contents = second_reader::file::read_file(&file).expect("well formed");
        let mut prng = Prng::new(1);
        for (_, zone) in contents.zones.iter().step_by(9) {
            let id = &file[contents.pool[zone.id].clone()];
            for ticks in instants(zone, &mut prng).into_iter().step_by(7) {
                same_question(&file, id, ticks, &mut seen);
            }
            for local in local_times(zone, &mut prng).into_iter().step_by(7) {
                same_local(&file, id, local, &mut seen);
            }
        }
        for &(key, _) in contents.aliases.iter().flatten() {
            same_question(&file, &file[contents.pool[key].clone()], 0, &mut seen);
        }
        same_question(&file, b"No/Such_Zone", 0, &mut seen);
    }
}

/// Other bytes than ASCII at every place of a pool that is ASCII else, so that what is known to be ASCII ends anywhere.
#[test]
fn ascii_up_to_any_place() {
    let mut seen = Seen::default();
    for place in 0..599 {
        for bytes in [&[0xc3, 0xa9], &[0xff, 0xff]] {
            let mut pool = vec![5];
            let mut letters = vec![b'x'; 600];
            letters[place..place + 2].copy_from_slice(bytes);
            for string in letters.chunks(120) {
                pool.push(120);
                pool.extend(string);
            }
            let mut file = vec![0; 5];
            file.extend(second_reader::codes::encode_count(pool.len() as i64).expect("a count"));
            file.extend(pool);
            same_whole(&file, &mut seen);
        }
    }
    assert_eq!(seen.whole, BTreeSet::from([0, 8, 12, 15]));
}

#[test]
fn limits() {
    // A field that ends at 4,194,304 exactly, and what may stand behind it.
    let mut full = vec![0, 0, 0, 0, 0, 1, 0, 8];
    let size = 4_194_304 - full.len() - 4;
    full.extend(second_reader::codes::encode_count(size as i64).expect("a count"));
    full.resize(4_194_304, 0);
    let mut seen = Seen::default();
    for behind in [&[][..], &[0xc8], &[0xc8, 0], &[0xc8, 0x80, 0], &[0xc8, 0x80], &[0xc8, 0x80, 0x80, 0x80, 0x80, 0x80]]
    {
        let file = [&full, behind].concat();
        same_whole(&file, &mut seen);
        same_question(&file, b"A", 0, &mut seen);
    }
    assert_eq!(seen.whole, BTreeSet::from([0, 2, 4, 7, 12, 15]));
}

/// Files in pieces of any lengths, good and damaged: the place after each, from where the walk stopped and from the front.
#[test]
fn pieces() {
    for seed in 0..400 {
        let mut prng = Prng::of_case(8, seed);
        let content = random_content(&mut prng, Size::Small);
        let good = plan(&content, &mut Forms::Any(&mut prng));
        let kind = *prng.pick(&Damage::ALL);
        for file in [good.bytes(), damaged(&good, kind, &mut prng)] {
            let mut buffer = vec![0; file.len()];
            let mut receiver = peer::Receiver::default();
            while receiver.held < file.len() {
                let most = (file.len() - receiver.held).min(if prng.one_in(4) { 2000 } else { 20 });
                let piece = &file[receiver.held..][..1 + prng.below(most)];
                assert_eq!(receiver.add(&mut buffer, piece), Ok(()));
                let held = &file[..receiver.held];
                let place = second_reader::receiver::unfinished(held);
                assert_eq!((receiver.place, peer::unfinished(held)), (place, place), "{held:02x?}");
            }
            assert_eq!(buffer, file);
            assert_eq!(receiver.add(&mut buffer, &[0]), Err(peer::Refusal { number: 15, place: 0 }));
        }
    }
}

#[test]
fn older_dictionaries() {
    let (mut read, mut asked) = (BTreeSet::new(), BTreeSet::new());
    for seed in 0..2000 {
        let mut prng = Prng::new(seed);
        let content = random_content(&mut prng, Size::Small);
        let whole = plan(&content, &mut Forms::Any(&mut prng));
        let kind = *prng.pick(&Damage::ALL);
        let file = if prng.one_in(4) { damaged(&whole, kind, &mut prng) } else { whole.bytes() };
        let entries = random_entries(&content, &mut prng);
        for older in [dictionary(&entries), damaged_dictionary(&entries, &mut prng)] {
            let theirs = second_reader::old::read_dictionary(&older)
                .map(|(entries, length)| (entries.into_iter().map(|(k, v)| (&older[k], &older[v])).collect(), length))
                .map_err(|number| number.value());
            read.insert(theirs.as_ref().map_or_else(|number| *number, |_| 0));
            assert_eq!(peer::old_dictionary(&older), theirs, "{older:02x?}");
            for (name, ticks) in questions(&content, &mut prng, 5) {
                for (first, edition) in [(true, Edition::One), (false, Edition::Two)] {
                    let theirs = expected(second_reader::ask_named_old(&file, &older, &name, ticks, edition));
                    asked.insert(number_of(&theirs));
                    let ours = given(&file, peer::ask_named_old(&file, &older, &name, ticks, first));
                    assert_eq!(ours, theirs, "{older:02x?}, {name:?}");
                }
            }
        }
    }
    assert_eq!(read, BTreeSet::from([0, 4, 7, 8, 9, 19]));
    assert!(asked.is_superset(&BTreeSet::from([0, 4, 7, 8, 9, 12, 14, 18, 19])), "{asked:?}");
}

//! compact.rs: constants, the metadata block, appends, and what the iterators and accessors read, of whole data, data
//! cut short and data with a byte changed. A panic is none.

use super::page::{Page, Row, row, rows};
use super::state::{kind_name, members, meta, spans, tags};
use super::term::{atom, bytes, call, list, option, packed, unless_panic, z};
use crate::kinds::ElementKind;
use crate::osc::compact::*;
use crate::osc::interner::StringTable;
use crate::read::elements::MemberType;
use crate::write::block_builder::Metadata;

const KINDS: [ElementKind; 3] = [ElementKind::Node, ElementKind::Way, ElementKind::Relation];
const SPANS: [(u32, u32); 3] = [(0, 0), (0, 2), (2, 1)];

/// Bytes, and the term that they are asked by: a name that the page defines, cut short or with a byte changed.
#[derive(Clone)]
struct Data {
    term: String,
    bytes: Vec<u8>,
}

impl Data {
    fn named(page: &mut Page, name: &str, bytes: Vec<u8>) -> Self {
        page.define(name, "Bytes", &list(&bytes));
        Self { term: name.to_owned(), bytes }
    }

    fn cut(&self, len: usize) -> Self {
        Self { term: call("take", &[len.to_string(), self.term.clone()]), bytes: self.bytes[..len].to_vec() }
    }

    /// As it is where there is no such byte.
    fn put(&self, at: usize, byte: u8) -> Self {
        let mut bytes = self.bytes.clone();
        if let Some(old) = bytes.get_mut(at) {
            *old = byte;
        }
        Self { term: call("put", &[at.to_string(), byte.to_string(), self.term.clone()]), bytes }
    }
}

/// Three texts: none, `ab`, `c`.
fn held() -> StringTable {
    StringTable::judge_of("abc", &SPANS)
}

pub(super) fn page() -> Page {
    let mut page = Page::new("Compact");
    page.define("held", "StringTable", &call("strings", &[bytes("abc"), spans(&SPANS)]));
    page.define("flags", "List ℕ", &list(0..256));
    page.about("constants", constants());
    page.about("read_le", reads());
    page.about("member_type", member_types());
    page.about("clear", [1, 2, 4, 8].map(clear));
    page.about("version_claim", [0, 7, i32::MIN].map(claims));
    let two = Data::named(&mut page, "two", two_records());
    page.about("version_at", versions_at(&two));
    page.about("append_meta", metas().iter().map(appended_meta));
    page.about("append_tags", tag_lists().iter().map(appended_tags));
    page.about(
        "append",
        appends().into_iter().map(|(question, data)| row(format!("packed ({question})"), packed(&data))),
    );
    page.about("read_meta", read_metas());
    let parts = Data::named(&mut page, "parts", one_of_each_part());
    page.about("ref_next", steps(&parts, next_ref));
    page.about("member_next", steps(&parts, next_member));
    page.about("tag_next", steps(&parts, next_tag));
    for kind in KINDS {
        records(&mut page, kind);
    }
    page
}

fn constants() -> Vec<Row> {
    let [node, way, relation] = JUDGE_HEADS;
    let [version, timestamp, changeset, uid, user_id] = JUDGE_META_OFFSETS;
    let numbers =
        |name: &str, values: &[usize]| rows(name.to_owned(), &values.iter().map(usize::to_string).collect::<Vec<_>>());
    let flags = [META_FLAG_PRESENT, META_FLAG_HIDDEN, META_FLAG_HAS_USER, META_FLAG_HAS_VERSION].map(usize::from);
    vec![
        numbers("map Compact.HEADER_LEN (Node ∷ Way ∷ Relation ∷ [])", &[node, way, relation]),
        numbers("map Compact.META_OFF (Node ∷ Way ∷ Relation ∷ [])", &[NODE_META_OFF, WAY_META_OFF, RELATION_META_OFF]),
        numbers("Compact.META_LEN ∷ Compact.MEMBER_SIZE ∷ []", &[META_LEN, JUDGE_MEMBER_SIZE]),
        numbers(
            "Compact.M_VERSION ∷ Compact.M_TIMESTAMP ∷ Compact.M_CHANGESET ∷ Compact.M_UID ∷ Compact.M_USER_ID ∷ []",
            &[version, timestamp, changeset, uid, user_id],
        ),
        numbers(
            "Compact.META_FLAG_PRESENT ∷ Compact.META_FLAG_HIDDEN ∷ Compact.META_FLAG_HAS_USER ∷ \
             Compact.META_FLAG_HAS_VERSION ∷ []",
            &flags,
        ),
    ]
}

/// The three readers, of bytes at the ends of the numbers, at each place.
fn reads() -> Vec<Row> {
    let mut out = Vec::new();
    let ends =
        [[0; 12], [255; 12], [0, 0, 0, 128, 0, 0, 0, 128, 0, 0, 0, 128], [1, 2, 3, 4, 5, 6, 7, 8, 9, 10, 11, 12]];
    for data in ends.iter().flat_map(|end| [0, 3, 4, 7, 8, 9, 12].map(|len| &end[..len])) {
        for at in 0..6 {
            let wide = option(unless_panic(|| z(JUDGE_READ_I64(data, at))));
            let narrow = option(unless_panic(|| z(JUDGE_READ_I32(data, at))));
            let unsigned = option(unless_panic(|| z(JUDGE_READ_U32(data, at))));
            let s = atom(list(data));
            let signed = format!("Compact.read_i64_le {s} {at} ∷ Compact.read_i32_le {s} {at}");
            let question = format!("{signed} ∷ option_map pos (Compact.read_u32_le {s} {at}) ∷ []");
            out.push(rows(question, &[wide, narrow, unsigned]));
        }
    }
    out
}

fn member_name(kind: MemberType) -> &'static str {
    match kind {
        MemberType::Node => "Node",
        MemberType::Way => "Way",
        MemberType::Relation => "Relation",
        MemberType::Unknown(_) => unreachable!("no byte is read as one"),
    }
}

fn member_types() -> Vec<Row> {
    let byte = |kind| member_type_to_byte(kind).expect("a known type").to_string();
    let written = [MemberType::Node, MemberType::Way, MemberType::Relation].map(byte);
    let to_byte = "map (λ k. Some (Compact.member_type_to_byte k)) (Node ∷ Way ∷ Relation ∷ [])".to_owned();
    let read = |b: u8| option(unless_panic(|| member_type_to_byte(JUDGE_MEMBER_TYPE(b)).expect("a known type")));
    let read: Vec<String> = (0..=255).map(read).collect();
    let from_byte = "map (λ b. option_map Compact.member_type_to_byte (Compact.byte_to_member_type b)) flags";
    vec![rows(to_byte, &written.map(|b| option(Some(b)))), rows(from_byte.to_owned(), &read)]
}

fn clear(bit: u8) -> Row {
    let answers: Vec<String> = (0..=255u8).map(|flags| (flags & bit == 0).to_string()).collect();
    rows(format!("map (λ f. Compact.clear f {bit}) flags"), &answers)
}

fn claims(version: i32) -> Row {
    let claim = |flags| option(ArenaMeta { flags, version, ..ArenaMeta::default() }.version_claim().map(z));
    let answers: Vec<String> = (0..=255).map(claim).collect();
    rows(
        format!("map (λ f. Compact.version_claim (meta f ({}) (pos 0) (pos 0) (pos 0) 0)) flags", z(version)),
        &answers,
    )
}

/// A way's record and a node's behind it.
fn two_records() -> Vec<u8> {
    let mut data = Vec::new();
    let [plain, full, ..] = metas();
    arena_append_way(&mut data, 1, &[], &[], &full).expect("few");
    arena_append_node(&mut data, 2, 3, 4, &[], &plain).expect("few");
    data
}

fn versions_at(two: &Data) -> Vec<Row> {
    let mut out = Vec::new();
    for flags in [0, 1, 7, 8, 9, 15, 247, 255] {
        for (at, off) in [(0, WAY_META_OFF), (45, NODE_META_OFF), (0, NODE_META_OFF), (46, 15), (90, 4)] {
            for len in [0, 16, 17, 20, 21, 65, 66, 69, 70, 94] {
                let data = two.cut(len).put(at + off, flags);
                let answer = unless_panic(|| version_at(&data.bytes, at, off)).flatten();
                let question = call("Compact.version_at", &[data.term, at.to_string(), off.to_string()]);
                out.push(row(question, option(answer.map(z))));
            }
        }
    }
    out
}

/// Metadata: nothing, all at once, the ends of the numbers, flags that do not go together.
fn metas() -> [ArenaMeta; 5] {
    let none = ArenaMeta::default();
    let full = ArenaMeta { flags: 15, version: 3, timestamp: 1_704_067_200, changeset: -9, uid: -7, user_id: 1 };
    let most =
        ArenaMeta { flags: 13, version: i32::MAX, timestamp: i64::MAX, changeset: i64::MAX, uid: i32::MAX, user_id: 2 };
    let least =
        ArenaMeta { flags: 9, version: i32::MIN, timestamp: i64::MIN, changeset: i64::MIN, uid: i32::MIN, user_id: 0 };
    [none, full, most, least, ArenaMeta { flags: 255, user_id: u32::MAX, ..full }]
}

fn appended_meta(m: &ArenaMeta) -> Row {
    let mut data = vec![9];
    JUDGE_APPEND_META(&mut data, m);
    row(call("Compact.arena_append_meta", &[meta(m)]), list(&data[1..]))
}

fn tag_lists() -> [&'static [(u32, &'static str)]; 5] {
    [&[], &[(1, "v")], &[(2, "")], &[(0, "two words"), (u32::MAX, "ü")], &[(1, "a"), (2, "bc"), (1, "")]]
}

fn appended_tags(list_of: &&[(u32, &str)]) -> Row {
    let mut data = vec![9];
    judge_append_tags(&mut data, list_of).expect("few");
    row(call("Compact.append_tags", &[tags(list_of)]), list(&data[1..]))
}

/// What each append is asked, and the bytes that it appends to an arena that holds some.
fn appends() -> Vec<(String, Vec<u8>)> {
    let mut out = Vec::new();
    let ids = [0, 1, -1, i64::MIN, i64::MAX];
    let ref_lists: [&[i64]; 4] = [&[], &[5], &[-1, i64::MAX], &[i64::MIN, 0, 7]];
    let member_lists: [&[(i64, u8, u32)]; 4] =
        [&[], &[(5, 0, 0)], &[(-1, 1, 2), (i64::MAX, 2, 1)], &[(0, 255, u32::MAX)]];
    for (n, m) in metas().iter().enumerate() {
        for (k, list_of) in tag_lists().into_iter().enumerate() {
            let id = ids[(n + k) % 5];
            for place in [(0, 0), (900_000_000, -1_800_000_000), (i32::MIN, i32::MAX)] {
                out.push(node_appended(id, place, list_of, m));
            }
            for number in 0..4 {
                out.push(way_appended(id, ref_lists[number], list_of, m));
                out.push(relation_appended(id, member_lists[number], list_of, m));
            }
        }
    }
    out
}

/// The bytes behind those that were there, which stay; the answer is the length before.
fn behind(append: impl FnOnce(&mut Vec<u8>) -> usize) -> Vec<u8> {
    let mut data = vec![9, 8, 7];
    assert_eq!(append(&mut data), 3);
    assert_eq!(data[..3], [9, 8, 7]);
    data.split_off(3)
}

fn node_appended(id: i64, (lat, lon): (i32, i32), list_of: &[(u32, &str)], m: &ArenaMeta) -> (String, Vec<u8>) {
    let data = behind(|arena| arena_append_node(arena, id, lat, lon, list_of, m).expect("few"));
    (call("Compact.arena_append_node", &[z(id), z(lat), z(lon), tags(list_of), meta(m)]), data)
}

fn way_appended(id: i64, refs: &[i64], list_of: &[(u32, &str)], m: &ArenaMeta) -> (String, Vec<u8>) {
    let data = behind(|arena| arena_append_way(arena, id, refs, list_of, m).expect("few"));
    (call("Compact.arena_append_way", &[z(id), list(refs.iter().map(|&r| z(r))), tags(list_of), meta(m)]), data)
}

fn relation_appended(id: i64, list_of: &[(i64, u8, u32)], tagged: &[(u32, &str)], m: &ArenaMeta) -> (String, Vec<u8>) {
    let data = behind(|arena| arena_append_relation(arena, id, list_of, tagged, m).expect("few"));
    (call("Compact.arena_append_relation", &[z(id), members(list_of), tags(tagged), meta(m)]), data)
}

/// What `read_meta` gives; the outer none is a panic.
fn metadata_term(read: Option<Option<Metadata<'_>>>) -> String {
    let one = |m: Metadata<'_>| {
        let numbers = [z(m.version), z(m.timestamp), z(m.changeset), z(m.uid)];
        call("metadata", &[&numbers[..], &[bytes(m.user), m.visible.to_string()]].concat())
    };
    option(read.map(|m| option(m.map(one))))
}

/// A block with each of its flags, of users held and not, cut short.
fn read_metas() -> Vec<Row> {
    let mut out = Vec::new();
    let strings = held();
    for flags in (0..16).chain([128, 255]) {
        for (user_id, len) in [(0, 32), (1, 32), (2, 32), (3, 32), (1, 31), (1, 28), (1, 7), (1, 3), (1, 2)] {
            let mut data = vec![9, 8, 7];
            JUDGE_APPEND_META(&mut data, &ArenaMeta { flags, user_id, ..metas()[1] });
            data.truncate(len);
            let answer = metadata_term(unless_panic(|| judge_read_meta(&data, 3, &strings)));
            out.push(row(call("Compact.read_meta held", &[list(&data), "3".to_owned()]), answer));
        }
    }
    out
}

/// A member, which begins with a ref, then a tag and two bytes more.
fn one_of_each_part() -> Vec<u8> {
    let member = [&1i64.to_le_bytes()[..], &[1], &2u32.to_le_bytes()].concat();
    [&member[..], &1u32.to_le_bytes(), &3u32.to_le_bytes(), b"abc\xffz"].concat()
}

/// One step of an iterator at each place, cut short at each, and with other type bytes.
fn steps(data: &Data, next: fn(&Data, usize, usize) -> Row) -> Vec<Row> {
    let mut out = Vec::new();
    for offset in 0..=data.bytes.len() {
        out.extend([0, 1, 5].map(|remaining| next(data, offset, remaining)));
        out.extend([0, 13].map(|at| next(&data.cut(offset), at, 2)));
    }
    out.extend([0, 2, 3, 255].map(|type_byte| next(&data.put(8, type_byte), 0, 1)));
    out
}

/// What a step answers, and where it leaves the iterator; the outer none is a panic.
fn step(read: Option<JudgeStep<String>>) -> String {
    let one = |(item, offset, remaining): JudgeStep<String>| {
        option(item.map(|item| format!("record {{ item = {item}; iter = iter {offset} {remaining} }}")))
    };
    option(read.map(one))
}

fn asked(function: &str, data: &Data, offset: usize, remaining: usize) -> String {
    call(function, &[data.term.clone(), format!("iter {offset} {remaining}")])
}

fn next_ref(data: &Data, offset: usize, remaining: usize) -> Row {
    let read = unless_panic(|| {
        let (item, offset, remaining) = judge_next_ref(&data.bytes, offset, remaining);
        (item.map(z), offset, remaining)
    });
    row(asked("Compact.ref_next", data, offset, remaining), step(read))
}

fn member_item((kind, id, role): (MemberType, i64, &str)) -> String {
    format!("record {{ member_type = {}; ref_id = {}; role = {} }}", member_name(kind), z(id), bytes(role))
}

fn next_member(data: &Data, offset: usize, remaining: usize) -> Row {
    let strings = held();
    let read = unless_panic(|| {
        let (item, offset, remaining) = judge_next_member(&data.bytes, &strings, offset, remaining);
        (item.map(member_item), offset, remaining)
    });
    row(asked("Compact.member_next held", data, offset, remaining), step(read))
}

fn tag_item((key, value): (&str, &str)) -> String {
    format!("record {{ k = {}; v = {} }}", bytes(key), bytes(value))
}

fn next_tag(data: &Data, offset: usize, remaining: usize) -> Row {
    let strings = held();
    let read = unless_panic(|| {
        let (item, offset, remaining) = judge_next_tag(&data.bytes, &strings, offset, remaining);
        (item.map(tag_item), offset, remaining)
    });
    row(asked("Compact.tag_next is_ascii held", data, offset, remaining), step(read))
}

/// A record with another behind it, with texts that are held.
fn record_and_another(kind: ElementKind) -> (Vec<u8>, usize) {
    let [_, full, most, ..] = metas();
    let appended = |m: &ArenaMeta, list_of: &[(u32, &str)]| match kind {
        ElementKind::Node => node_appended(-5, (7, -8), list_of, m).1,
        ElementKind::Way => way_appended(-5, &[3, -4], list_of, m).1,
        ElementKind::Relation => relation_appended(-5, &[(3, 2, 1), (-4, 0, 0)], list_of, m).1,
    };
    let first = appended(&full, &[(1, "v"), (2, "wide")]);
    let len = first.len();
    ([first, appended(&most, &[(2, "x")])].concat(), len)
}

/// What the accessors read of it: whole, cut short everywhere, and with each byte changed.
fn records(page: &mut Page, kind: ElementKind) {
    let (bytes, len) = record_and_another(kind);
    let whole = Data::named(page, kind.as_str(), bytes);
    let mut all = vec![whole.clone()];
    all.extend((0..=len).map(|cut| whole.cut(cut)));
    all.extend((0..len).map(|at| whole.cut(len).put(at, if whole.bytes[at] == 3 { 255 } else { 3 })));
    page.about(&format!("head_{kind}"), all.iter().map(|data| head(kind, data)));
    page.about(&format!("metadata_{kind}"), all.iter().map(|data| metadata(kind, data)));
    match kind {
        ElementKind::Node => (),
        ElementKind::Way => page.about("refs", all.iter().map(refs)),
        ElementKind::Relation => page.about("members", all.iter().map(members_of)),
    }
    page.about(&format!("tags_{kind}"), all.iter().map(|data| tags_of(kind, data)));
}

/// An accessor at the data and the strings.
type Accessor = fn(&[u8], &StringTable) -> String;

/// The accessors of a record's head, each with what is asked, `_` for the data.
fn heads(kind: ElementKind) -> &'static [(&'static str, Accessor)] {
    match kind {
        ElementKind::Node => &[
            ("Compact.record_id @", |data, strings| z(CompactNodeRef { data, strings }.id())),
            ("Compact.decimicro_lat @", |data, strings| z(CompactNodeRef { data, strings }.decimicro_lat())),
            ("Compact.decimicro_lon @", |data, strings| z(CompactNodeRef { data, strings }.decimicro_lon())),
            ("number (Compact.tag_count Node @)", |data, strings| number(CompactNodeRef { data, strings }.tag_count())),
        ],
        ElementKind::Way => &[
            ("Compact.record_id @", |data, strings| z(CompactWayRef { data, strings }.id())),
            ("number (Compact.ref_count @)", |data, strings| number(CompactWayRef { data, strings }.ref_count())),
            ("number (Compact.tag_count Way @)", |data, strings| number(CompactWayRef { data, strings }.tag_count())),
        ],
        ElementKind::Relation => &[
            ("Compact.record_id @", |data, strings| z(CompactRelationRef { data, strings }.id())),
            ("number (Compact.member_count @)", |data, strings| {
                number(CompactRelationRef { data, strings }.member_count())
            }),
            ("number (Compact.tag_count Relation @)", |data, strings| {
                number(CompactRelationRef { data, strings }.tag_count())
            }),
        ],
    }
}

fn number(n: usize) -> String {
    format!("pos {n}")
}

fn head(kind: ElementKind, data: &Data) -> Row {
    let (strings, term) = (held(), atom(&data.term));
    let questions = list(heads(kind).iter().map(|(question, _)| question.replace('@', &term)));
    let answer = |(_, f): &(&str, Accessor)| option(unless_panic(|| f(&data.bytes, &strings)));
    rows(questions, &heads(kind).iter().map(answer).collect::<Vec<_>>())
}

fn metadata(kind: ElementKind, data: &Data) -> Row {
    let strings = held();
    let (s, t) = (&data.bytes[..], &strings);
    let read = unless_panic(|| match kind {
        ElementKind::Node => CompactNodeRef { data: s, strings: t }.metadata(),
        ElementKind::Way => CompactWayRef { data: s, strings: t }.metadata(),
        ElementKind::Relation => CompactRelationRef { data: s, strings: t }.metadata(),
    });
    row(call(&format!("Compact.metadata {} held", kind_name(kind)), &[data.term.clone()]), metadata_term(read))
}

/// Every item, with no room made beforehand for as many as the data counts.
fn all(items: impl Iterator<Item = String>) -> String {
    let mut out = Vec::new();
    items.for_each(|item| out.push(item));
    list(out)
}

fn refs(data: &Data) -> Row {
    let strings = held();
    let read = unless_panic(|| all(CompactWayRef { data: &data.bytes, strings: &strings }.refs().map(z)));
    row(call("Compact.refs", &[data.term.clone()]), option(read))
}

fn members_of(data: &Data) -> Row {
    let strings = held();
    let view = CompactRelationRef { data: &data.bytes, strings: &strings };
    row(
        call("Compact.members held", &[data.term.clone()]),
        option(unless_panic(|| all(view.members().map(member_item)))),
    )
}

fn tags_of(kind: ElementKind, data: &Data) -> Row {
    let strings = held();
    let (s, t) = (&data.bytes[..], &strings);
    let read = unless_panic(|| match kind {
        ElementKind::Node => all(CompactNodeRef { data: s, strings: t }.tags().map(tag_item)),
        ElementKind::Way => all(CompactWayRef { data: s, strings: t }.tags().map(tag_item)),
        ElementKind::Relation => all(CompactRelationRef { data: s, strings: t }.tags().map(tag_item)),
    });
    row(call(&format!("Compact.tags is_ascii {} held", kind_name(kind)), &[data.term.clone()]), option(read))
}

// Beside the published file: the driver by its private name, and the same driver one event at a time.
use crate::nesting::Place;

pub(crate) fn judge_drive<R: io::BufRead>(reader: &mut Reader<R>, overlay: &mut CompactDiffOverlay) -> ParseResult<()> {
    drive_osc(reader, &mut CompactSink::new(overlay), Path::new("events"))
}

/// `drive_osc`'s state and its sink's staged element between two events.
#[derive(Clone)]
pub(crate) struct JudgeSteps {
    level: Level,
    section: OscAction,
    open: ElementKind,
    staging: Option<JudgeStaged>,
}

/// What is staged for an element, by value.
#[derive(Clone, Debug, PartialEq, Eq)]
pub(crate) struct JudgeStaged {
    pub(crate) kind: ElementKind,
    pub(crate) id: i64,
    pub(crate) lat: i32,
    pub(crate) lon: i32,
    pub(crate) meta: (u8, i32, i64, i64, i32, u32),
    pub(crate) tag_keys: Vec<u32>,
    pub(crate) tag_values: Vec<String>,
    pub(crate) refs: Vec<i64>,
    pub(crate) members: Vec<(i64, u8, u32)>,
}

impl JudgeStaged {
    fn take(s: Staging) -> Self {
        Self {
            kind: s.kind,
            id: s.id,
            lat: s.lat,
            lon: s.lon,
            meta: (s.meta.flags, s.meta.version, s.meta.timestamp, s.meta.changeset, s.meta.uid, s.meta.user_id),
            tag_keys: s.tag_keys,
            tag_values: s.tag_values,
            refs: s.refs,
            members: s.members,
        }
    }

    fn give(self) -> Staging {
        let (flags, version, timestamp, changeset, uid, user_id) = self.meta;
        Staging {
            kind: self.kind,
            id: self.id,
            lat: self.lat,
            lon: self.lon,
            meta: ArenaMeta { flags, version, timestamp, changeset, uid, user_id },
            tag_keys: self.tag_keys,
            tag_values: self.tag_values,
            refs: self.refs,
            members: self.members,
        }
    }
}

impl JudgeSteps {
    /// The state that `drive_osc` begins with.
    pub(crate) fn new() -> Self {
        Self { level: Level::Doc, section: OscAction::Create, open: ElementKind::Node, staging: None }
    }

    /// Any such state.
    pub(crate) fn at(place: Place, staging: Option<JudgeStaged>) -> Self {
        Self {
            level: JUDGE_LEVELS[usize::from(place.level)],
            section: JUDGE_SECTIONS[usize::from(place.section)],
            open: JUDGE_KINDS[usize::from(place.kind)],
            staging,
        }
    }

    /// One turn of `drive_osc`'s loop.
    pub(crate) fn step(&mut self, overlay: &mut CompactDiffOverlay, event: &Event<'_>) -> ParseResult<()> {
        let path = Path::new("events");
        self.with(overlay, |state, sink| match event {
            Event::Start(e) => handle_open(e, false, state, sink, path),
            Event::Empty(e) => handle_open(e, true, state, sink, path),
            Event::End(_) => handle_close(state, sink, path),
            _ => Ok(()),
        })
    }

    /// The sink's `begin_element` alone.
    pub(crate) fn begin(
        &mut self,
        overlay: &mut CompactDiffOverlay,
        kind: ElementKind,
        e: &quick_xml::events::BytesStart<'_>,
    ) -> ParseResult<()> {
        self.with(overlay, |state, sink| sink.begin_element(state.section, kind, e))
    }

    fn with(
        &mut self,
        overlay: &mut CompactDiffOverlay,
        f: impl FnOnce(&mut DriveState, &mut CompactSink<'_>) -> ParseResult<()>,
    ) -> ParseResult<()> {
        let mut state = DriveState { level: self.level, section: self.section, open: self.open };
        let mut sink = CompactSink::new(overlay);
        sink.staging = self.staging.take().map(JudgeStaged::give);
        let reply = f(&mut state, &mut sink);
        self.staging = sink.staging.take().map(JudgeStaged::take);
        self.level = state.level;
        self.section = state.section;
        self.open = state.open;
        reply
    }

    /// `drive_osc`'s end test.
    pub(crate) fn is_done(&self) -> bool {
        self.level == Level::Done
    }

    pub(crate) fn place(&self) -> Place {
        Place {
            level: judge_number(&JUDGE_LEVELS, &self.level),
            section: judge_number(&JUDGE_SECTIONS, &self.section),
            kind: judge_number(&JUDGE_KINDS, &self.open),
        }
    }

    pub(crate) fn staged(&self) -> Option<&JudgeStaged> {
        self.staging.as_ref()
    }
}

// The values in the order of the library's words for them: a place has their numbers.
const JUDGE_LEVELS: [Level; 7] =
    [Level::Doc, Level::Root, Level::Section, Level::Element, Level::Leaf, Level::Other, Level::Done];
const JUDGE_SECTIONS: [OscAction; 3] = [OscAction::Create, OscAction::Modify, OscAction::Delete];
const JUDGE_KINDS: [ElementKind; 3] = [ElementKind::Node, ElementKind::Way, ElementKind::Relation];

fn judge_number<T: PartialEq>(values: &[T], value: &T) -> u8 {
    let at = values.iter().position(|v| v == value);
    at.expect("every value is there") as u8
}

pub(crate) fn judge_action(name: &str) -> Option<u8> {
    action_for(name).map(|action| judge_number(&JUDGE_SECTIONS, &action))
}

pub(super) const JUDGE_META: fn(&quick_xml::events::BytesStart<'_>, &mut CompactDiffOverlay) -> ParseResult<ArenaMeta> =
    arena_meta;

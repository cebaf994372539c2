// Beside the published file: the record heads' lengths, and the bytes of a view.
pub(crate) const JUDGE_HEADS: [usize; 3] =
    [CompactNodeRef::HEADER_LEN, CompactWayRef::HEADER_LEN, CompactRelationRef::HEADER_LEN];
pub(crate) const JUDGE_MEMBER_SIZE: usize = CompactRelationRef::MEMBER_SIZE;

impl CompactTagIter<'_> {
    /// Where the next tag starts in the view.
    pub(crate) fn judge_at(&self) -> usize {
        self.offset
    }
}

// The private readers and appends.
pub(crate) const JUDGE_READ_I64: fn(&[u8], usize) -> i64 = read_i64_le;
pub(crate) const JUDGE_READ_I32: fn(&[u8], usize) -> i32 = read_i32_le;
pub(crate) const JUDGE_READ_U32: fn(&[u8], usize) -> u32 = read_u32_le;
pub(crate) const JUDGE_MEMBER_TYPE: fn(u8) -> MemberType = byte_to_member_type;
pub(super) const JUDGE_APPEND_META: fn(&mut Vec<u8>, &ArenaMeta) = arena_append_meta;
pub(crate) const JUDGE_META_OFFSETS: [usize; 5] = [M_VERSION, M_TIMESTAMP, M_CHANGESET, M_UID, M_USER_ID];

pub(super) fn judge_append_tags(arena: &mut Vec<u8>, tags: &[(u32, &str)]) -> ParseResult<()> {
    append_tags(arena, tags, ElementKind::Node, 0)
}

pub(super) fn judge_read_meta<'a>(
    data: &'a [u8],
    offset: usize,
    strings: &'a StringTable,
) -> Option<crate::write::block_builder::Metadata<'a>> {
    read_meta(data, offset, strings)
}

// The iterators at any place, and where one step leaves them.
pub(super) type JudgeStep<T> = (Option<T>, usize, usize);

pub(super) fn judge_next_ref(data: &[u8], offset: usize, remaining: usize) -> JudgeStep<i64> {
    let mut iter = CompactRefIter { data, offset, remaining };
    (iter.next(), iter.offset, iter.remaining)
}

pub(super) fn judge_next_member<'a>(
    data: &'a [u8],
    strings: &'a StringTable,
    offset: usize,
    remaining: usize,
) -> JudgeStep<(MemberType, i64, &'a str)> {
    let mut iter = CompactMemberIter { data, offset, remaining, strings };
    (iter.next(), iter.offset, iter.remaining)
}

pub(super) fn judge_next_tag<'a>(
    data: &'a [u8],
    strings: &'a StringTable,
    offset: usize,
    remaining: usize,
) -> JudgeStep<(&'a str, &'a str)> {
    let mut iter = CompactTagIter { data, offset, remaining, strings };
    (iter.next(), iter.offset, iter.remaining)
}

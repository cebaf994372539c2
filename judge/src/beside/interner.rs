// Beside the published file: reading the private table, and taking a copy.
impl StringInterner {
    /// The texts by handle.
    pub(super) fn judge_texts(&self) -> Vec<String> {
        (0..self.strings.table.len()).map(|n| self.strings.resolve(n as u32).to_owned()).collect()
    }

    /// The spans by handle, and the string bytes.
    pub(super) fn judge_spans(&self) -> (&[(u32, u32)], &[u8]) {
        (&self.strings.table, self.strings.data.as_bytes())
    }
}

impl Clone for StringInterner {
    fn clone(&self) -> Self {
        Self {
            strings: StringTable { data: self.strings.data.clone(), table: self.strings.table.clone() },
            lookup: self.lookup.clone(),
        }
    }
}

impl StringInterner {
    /// The handle under which each text is looked up, and the number of such texts.
    pub(super) fn judge_lookup(&self) -> (Vec<Option<u32>>, usize) {
        let held = |text: String| self.lookup.get(&text).copied();
        (self.judge_texts().into_iter().map(held).collect(), self.lookup.len())
    }
}

impl StringTable {
    /// A table of any spans.
    pub(super) fn judge_of(data: &str, table: &[(u32, u32)]) -> Self {
        Self { data: data.to_owned(), table: table.to_vec() }
    }
}

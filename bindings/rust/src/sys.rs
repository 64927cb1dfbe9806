//! The proved library's functions and the layouts of the arrays that they fill, as bindings/c/ecchjulmina.h declares them.
//! tests/header.rs holds every line of this file that matters against the header.
#![allow(missing_docs)]

// x86-64 is what is handed on; on aarch64 bindings/library compiles the proved modules for trying (scripts/native)
#[cfg(not(all(any(target_arch = "x86_64", target_arch = "aarch64"), target_os = "linux")))]
compile_error!("the proved library is built for x86-64 Linux");

macro_rules! layout {
    ($($name:ident = $at:literal),* $(,)?) => {
        $(pub const $name: usize = $at;)*
        /// The names and numbers, for the test against the header.
        pub const LAYOUT: &[(&str, usize)] = &[$((stringify!($name), $at)),*];
    };
}

layout! {
    ECCH_PUBLISH = 3, ECCH_PUBACK = 4, ECCH_PUBREC = 5, ECCH_PUBREL = 6, ECCH_PUBCOMP = 7, ECCH_SUBSCRIBE = 8, ECCH_SUBACK = 9,
    ECCH_UNSUBSCRIBE = 10, ECCH_UNSUBACK = 11, ECCH_PINGREQ = 12, ECCH_PINGRESP = 13,
    ECCH_SIZE = 0, ECCH_VALUE_1 = 1, ECCH_VALUE_2 = 2, ECCH_ANSWER_LEN = 3,
    ECCH_TAKEN = 0, ECCH_KIND = 3, ECCH_PKID = 4, ECCH_DUP = 5, ECCH_QOS = 6, ECCH_RETAIN = 7, ECCH_REASON = 8,
    ECCH_TOPIC_START = 9, ECCH_TOPIC_LEN = 10, ECCH_PAYLOAD_START = 11, ECCH_PAYLOAD_LEN = 12, ECCH_FILTERS_START = 13,
    ECCH_FILTERS_LEN = 14, ECCH_BLOCK = 15, ECCH_BLOCK_START = 16, ECCH_BLOCK_LEN = 17, ECCH_FORMAT = 18, ECCH_FORMAT_VALUE = 19,
    ECCH_EXPIRY = 20, ECCH_EXPIRY_VALUE = 21, ECCH_ALIAS = 22, ECCH_ALIAS_VALUE = 23, ECCH_RESPONSE = 24, ECCH_RESPONSE_START = 25,
    ECCH_RESPONSE_LEN = 26, ECCH_CORRELATION = 27, ECCH_CORRELATION_START = 28, ECCH_CORRELATION_LEN = 29, ECCH_CONTENT = 30,
    ECCH_CONTENT_START = 31, ECCH_CONTENT_LEN = 32, ECCH_REASON_STRING = 33, ECCH_REASON_STRING_START = 34,
    ECCH_REASON_STRING_LEN = 35, ECCH_SUBSCRIPTION = 36, ECCH_SUBSCRIPTION_VALUE = 37, ECCH_REASONS_START = 38, ECCH_REASONS_LEN = 39,
    ECCH_TOPICS_START = 40, ECCH_TOPICS_LEN = 41, ECCH_PROPERTIES_START = 42, ECCH_PROPERTIES_END = 43, ECCH_RECORD_LEN = 44,
    ECCH_PROPERTY_NEXT = 0, ECCH_PROPERTY_IDENTIFIER = 1, ECCH_PROPERTY_NUMBER = 2, ECCH_PROPERTY_START = 3, ECCH_PROPERTY_LEN = 4,
    ECCH_PROPERTY_SECOND_START = 5, ECCH_PROPERTY_SECOND_LEN = 6, ECCH_PROPERTY_NUMBERS = 7,
    ECCH_NEXT_FILTER_NEXT = 0, ECCH_NEXT_FILTER_START = 1, ECCH_NEXT_FILTER_LEN = 2, ECCH_NEXT_FILTER_QOS = 3,
    ECCH_NEXT_FILTER_NO_LOCAL = 4, ECCH_NEXT_FILTER_PRESERVE_RETAIN = 5, ECCH_NEXT_FILTER_RULE = 6, ECCH_NEXT_FILTER_NUMBERS = 7,
    ECCH_NEXT_USER_NEXT = 0, ECCH_NEXT_USER_KEY_START = 1, ECCH_NEXT_USER_KEY_LEN = 2, ECCH_NEXT_USER_VALUE_START = 3,
    ECCH_NEXT_USER_VALUE_LEN = 4, ECCH_NEXT_USER_NUMBERS = 5,
    ECCH_FILTER_TABLE_FULL = 37, ECCH_NOT_SUBSCRIBE = 38, ECCH_ENTRY_START = 0, ECCH_ENTRY_LEN = 1, ECCH_ENTRY_OPTIONS = 2, ECCH_ENTRY_NUMBERS = 3,
    ECCH_TABLE_TAKEN = 0, ECCH_TABLE_VALUE_1 = 1, ECCH_TABLE_VALUE_2 = 2, ECCH_TABLE_FILLED = 3, ECCH_TABLE_NUMBERS = 4,
    ECCH_NEXT_TOPIC_NEXT = 0, ECCH_NEXT_TOPIC_START = 1, ECCH_NEXT_TOPIC_LEN = 2, ECCH_NEXT_TOPIC_NUMBERS = 7,
    ECCH_ALIAS_TABLE_BAD = 24, ECCH_ALIAS_INVALID = 25, ECCH_TOPIC_MISSING = 26, ECCH_ALIAS_UNKNOWN = 27, ECCH_ALIAS_NO_ROOM = 28,
    ECCH_ALIAS_TABLE_LEN = 2064, ECCH_FORCE_SLICE = 0, ECCH_FORCE_START = 1, ECCH_FORCE_LEN = 2, ECCH_FORCE_NUMBERS = 3, ECCH_IN_STREAM = 1,
    ECCH_IN_TABLE = 2,
    ECCH_BAD_BUFFER = 35, ECCH_FRAME_TOO_LONG = 36,
    ECCH_STATE_HELD = 0, ECCH_STATE_ENDED = 1, ECCH_STATE_VALUE_1 = 2, ECCH_STATE_VALUE_2 = 3, ECCH_STATE_NUMBERS = 4,
    ECCH_FRAME_USED = 0, ECCH_FRAME_VALUE_1 = 1, ECCH_FRAME_VALUE_2 = 2, ECCH_FRAME_PLACE = 3, ECCH_FRAME_LEN = 4, ECCH_FRAME_NUMBERS = 5,
    ECCH_IN_PIECE = 1, ECCH_IN_BUFFER = 2,
    ECCH_IDENTIFIERS = 1024, ECCH_IN_FLIGHT_FULL = 29, ECCH_NO_CLAIM = 30, ECCH_NOT_WAITING = 31, ECCH_BAD_TABLE = 39, ECCH_JOURNAL_EMPTY = 33, ECCH_JOURNAL_ENDED = 34,
    ECCH_TIDY_SIZE = 0, ECCH_TIDY_VALUE_1 = 1, ECCH_TIDY_VALUE_2 = 2, ECCH_TIDY_TAKEN = 3, ECCH_TIDY_NUMBERS = 4,
}

extern "C" {
    pub fn ecch_read(stream: *const u8, stream_len: usize, limited: u8, limit: usize, record: *mut u64, record_len: usize) -> u32;
    pub fn ecch_property(stream: *const u8, stream_len: usize, kind: u8, at: usize, end: usize, item: *mut u64, item_len: usize) -> u32;
    pub fn ecch_next_filter(stream: *const u8, stream_len: usize, at: usize, end: usize, item: *mut u64, item_len: usize) -> u32;
    pub fn ecch_next_topic(stream: *const u8, stream_len: usize, at: usize, end: usize, item: *mut u64, item_len: usize) -> u32;
    pub fn ecch_publish_size(
        dup: u8, qos: u8, retain: u8, pkid: u16,
        topic: *const u8, topic_len: usize,
        block: u8,
        format_on: u8, format: u8,
        expiry_on: u8, expiry: u32,
        alias_on: u8, alias: u16,
        response_on: u8, response: *const u8, response_len: usize,
        correlation_on: u8, correlation: *const u8, correlation_len: usize,
        user: *const u8, user_len: usize, user_lengths: *const usize, user_lengths_len: usize,
        identifiers: *const u32, identifiers_len: usize,
        content_on: u8, content: *const u8, content_len: usize,
        payload: *const u8, payload_len: usize,
        answer: *mut u64, answer_len: usize,
    ) -> u32;
    pub fn ecch_publish_write(
        dup: u8, qos: u8, retain: u8, pkid: u16,
        topic: *const u8, topic_len: usize,
        block: u8,
        format_on: u8, format: u8,
        expiry_on: u8, expiry: u32,
        alias_on: u8, alias: u16,
        response_on: u8, response: *const u8, response_len: usize,
        correlation_on: u8, correlation: *const u8, correlation_len: usize,
        user: *const u8, user_len: usize, user_lengths: *const usize, user_lengths_len: usize,
        identifiers: *const u32, identifiers_len: usize,
        content_on: u8, content: *const u8, content_len: usize,
        payload: *const u8, payload_len: usize,
        limited: u8, limit: usize,
        out: *mut u8, out_len: usize,
        answer: *mut u64, answer_len: usize,
    ) -> u32;
    pub fn ecch_subscribe_size(
        pkid: u16,
        block: u8,
        identifier_on: u8, identifier: u32,
        user: *const u8, user_len: usize, user_lengths: *const usize, user_lengths_len: usize,
        filters: *const u8, filters_len: usize, filter_lengths: *const usize, filter_lengths_len: usize,
        options: *const u8, options_len: usize,
        answer: *mut u64, answer_len: usize,
    ) -> u32;
    pub fn ecch_subscribe_write(
        pkid: u16,
        block: u8,
        identifier_on: u8, identifier: u32,
        user: *const u8, user_len: usize, user_lengths: *const usize, user_lengths_len: usize,
        filters: *const u8, filters_len: usize, filter_lengths: *const usize, filter_lengths_len: usize,
        options: *const u8, options_len: usize,
        limited: u8, limit: usize,
        out: *mut u8, out_len: usize,
        answer: *mut u64, answer_len: usize,
    ) -> u32;
    pub fn ecch_puback_size(
        pkid: u16, reason: u8,
        block: u8,
        reason_string_on: u8, reason_string: *const u8, reason_string_len: usize,
        user: *const u8, user_len: usize, user_lengths: *const usize, user_lengths_len: usize,
        answer: *mut u64, answer_len: usize,
    ) -> u32;
    pub fn ecch_puback_write(
        pkid: u16, reason: u8,
        block: u8,
        reason_string_on: u8, reason_string: *const u8, reason_string_len: usize,
        user: *const u8, user_len: usize, user_lengths: *const usize, user_lengths_len: usize,
        limited: u8, limit: usize,
        out: *mut u8, out_len: usize,
        answer: *mut u64, answer_len: usize,
    ) -> u32;
    pub fn ecch_pubrec_size(
        pkid: u16, reason: u8,
        block: u8,
        reason_string_on: u8, reason_string: *const u8, reason_string_len: usize,
        user: *const u8, user_len: usize, user_lengths: *const usize, user_lengths_len: usize,
        answer: *mut u64, answer_len: usize,
    ) -> u32;
    pub fn ecch_pubrec_write(
        pkid: u16, reason: u8,
        block: u8,
        reason_string_on: u8, reason_string: *const u8, reason_string_len: usize,
        user: *const u8, user_len: usize, user_lengths: *const usize, user_lengths_len: usize,
        limited: u8, limit: usize,
        out: *mut u8, out_len: usize,
        answer: *mut u64, answer_len: usize,
    ) -> u32;
    pub fn ecch_pubrel_size(
        pkid: u16, reason: u8,
        block: u8,
        reason_string_on: u8, reason_string: *const u8, reason_string_len: usize,
        user: *const u8, user_len: usize, user_lengths: *const usize, user_lengths_len: usize,
        answer: *mut u64, answer_len: usize,
    ) -> u32;
    pub fn ecch_pubrel_write(
        pkid: u16, reason: u8,
        block: u8,
        reason_string_on: u8, reason_string: *const u8, reason_string_len: usize,
        user: *const u8, user_len: usize, user_lengths: *const usize, user_lengths_len: usize,
        limited: u8, limit: usize,
        out: *mut u8, out_len: usize,
        answer: *mut u64, answer_len: usize,
    ) -> u32;
    pub fn ecch_pubcomp_size(
        pkid: u16, reason: u8,
        block: u8,
        reason_string_on: u8, reason_string: *const u8, reason_string_len: usize,
        user: *const u8, user_len: usize, user_lengths: *const usize, user_lengths_len: usize,
        answer: *mut u64, answer_len: usize,
    ) -> u32;
    pub fn ecch_pubcomp_write(
        pkid: u16, reason: u8,
        block: u8,
        reason_string_on: u8, reason_string: *const u8, reason_string_len: usize,
        user: *const u8, user_len: usize, user_lengths: *const usize, user_lengths_len: usize,
        limited: u8, limit: usize,
        out: *mut u8, out_len: usize,
        answer: *mut u64, answer_len: usize,
    ) -> u32;
    pub fn ecch_suback_size(
        pkid: u16,
        block: u8,
        reason_string_on: u8, reason_string: *const u8, reason_string_len: usize,
        user: *const u8, user_len: usize, user_lengths: *const usize, user_lengths_len: usize,
        reasons: *const u8, reasons_len: usize,
        answer: *mut u64, answer_len: usize,
    ) -> u32;
    pub fn ecch_suback_write(
        pkid: u16,
        block: u8,
        reason_string_on: u8, reason_string: *const u8, reason_string_len: usize,
        user: *const u8, user_len: usize, user_lengths: *const usize, user_lengths_len: usize,
        reasons: *const u8, reasons_len: usize,
        limited: u8, limit: usize,
        out: *mut u8, out_len: usize,
        answer: *mut u64, answer_len: usize,
    ) -> u32;
    pub fn ecch_unsubscribe_size(
        pkid: u16,
        block: u8,
        user: *const u8, user_len: usize, user_lengths: *const usize, user_lengths_len: usize,
        topics: *const u8, topics_len: usize, topic_lengths: *const usize, topic_lengths_len: usize,
        answer: *mut u64, answer_len: usize,
    ) -> u32;
    pub fn ecch_unsubscribe_write(
        pkid: u16,
        block: u8,
        user: *const u8, user_len: usize, user_lengths: *const usize, user_lengths_len: usize,
        topics: *const u8, topics_len: usize, topic_lengths: *const usize, topic_lengths_len: usize,
        limited: u8, limit: usize,
        out: *mut u8, out_len: usize,
        answer: *mut u64, answer_len: usize,
    ) -> u32;
    pub fn ecch_unsuback_size(
        pkid: u16,
        block: u8,
        reason_string_on: u8, reason_string: *const u8, reason_string_len: usize,
        user: *const u8, user_len: usize, user_lengths: *const usize, user_lengths_len: usize,
        reasons: *const u8, reasons_len: usize,
        answer: *mut u64, answer_len: usize,
    ) -> u32;
    pub fn ecch_unsuback_write(
        pkid: u16,
        block: u8,
        reason_string_on: u8, reason_string: *const u8, reason_string_len: usize,
        user: *const u8, user_len: usize, user_lengths: *const usize, user_lengths_len: usize,
        reasons: *const u8, reasons_len: usize,
        limited: u8, limit: usize,
        out: *mut u8, out_len: usize,
        answer: *mut u64, answer_len: usize,
    ) -> u32;
    pub fn ecch_ping_size(answer: *mut u64, answer_len: usize) -> u32;
    pub fn ecch_pingreq_write(limited: u8, limit: usize, out: *mut u8, out_len: usize, answer: *mut u64, answer_len: usize) -> u32;
    pub fn ecch_pingresp_write(limited: u8, limit: usize, out: *mut u8, out_len: usize, answer: *mut u64, answer_len: usize) -> u32;
    pub fn ecch_has_wildcards(s: *const u8, s_len: usize) -> u8;
    pub fn ecch_valid_topic(topic: *const u8, topic_len: usize) -> u8;
    pub fn ecch_valid_filter(filter: *const u8, filter_len: usize) -> u8;
    pub fn ecch_matches(topic: *const u8, topic_len: usize, filter: *const u8, filter_len: usize) -> u8;
    pub fn ecch_alias_learn(
        stream: *const u8, stream_len: usize, start: usize, len: usize, alias_on: u8, alias: u16, table: *mut u8, table_len: usize,
    ) -> u32;
    pub fn ecch_topic_in_force(
        stream: *const u8, stream_len: usize, start: usize, len: usize, alias_on: u8, alias: u16, table: *const u8, table_len: usize,
        item: *mut u64, item_len: usize,
    ) -> u32;
    pub fn ecch_next_frame(
        limited: u8, limit: usize,
        state: *mut u64, state_len: usize,
        buffer: *mut u8, buffer_len: usize,
        piece: *const u8, piece_len: usize,
        item: *mut u64, item_len: usize,
    ) -> u32;
    pub fn ecch_next_user(frame: *const u8, frame_len: usize, kind: u8, at: usize, end: usize, item: *mut u64, item_len: usize) -> u32;
    pub fn ecch_filter_table(
        stream: *const u8, stream_len: usize,
        table: *mut u64, table_len: usize,
        answer: *mut u64, answer_len: usize,
    ) -> u32;
    pub fn ecch_inflight_start(table: *mut u8, table_len: usize) -> u32;
    pub fn ecch_inflight_claim(qos: u8, table: *mut u8, table_len: usize, answer: *mut u64, answer_len: usize) -> u32;
    pub fn ecch_inflight_acked(kind: u8, id: u16, reason: u8, table: *mut u8, table_len: usize, answer: *mut u64, answer_len: usize) -> u32;
    pub fn ecch_inflight_waiting(table: *const u8, table_len: usize, answer: *mut u64, answer_len: usize) -> u32;
    pub fn ecch_journal_start(area: *mut u8, area_len: usize) -> u32;
    pub fn ecch_journal_save(
        table: *const u8, table_len: usize,
        area: *mut u8, area_len: usize,
        answer: *mut u64, answer_len: usize,
    ) -> u32;
    pub fn ecch_journal_recover(
        area: *const u8, area_len: usize,
        table: *mut u8, table_len: usize,
        answer: *mut u64, answer_len: usize,
    ) -> u32;
    pub fn ecch_tidy(stream: *const u8, stream_len: usize, out: *mut u8, out_len: usize, answer: *mut u64, answer_len: usize) -> u32;
}

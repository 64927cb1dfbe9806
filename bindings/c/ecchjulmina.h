/* Ecchjulmina for C: MQTT 5 packets read and written by proved code (crates c_read, c_write and c_ROOM for each room beside them). x86-64; link
 * with libecchjulmina.a (bindings/library).
 *
 * Every function ends, allocates nothing, keeps nothing, and calls nothing but its own code and C's memcpy. What each gives for every
 * input is proved (docs/PROMISES.md); that a C caller hands over what the declarations below say is assumed:
 * - a pointer with a length stands for that many elements that can be read, and for `out`, `record`, `item`, `answer`, `name`, `state`, `buffer`,
 *   and for `table` and `area` where they are not const, also be written; it is aligned and never NULL, not even with length 0 (ECCH_NOTHING serves there);
 * - what is written overlaps nothing else that is handed over, and no other thread writes what is handed over while the call lasts.
 *
 * Numbers of refusals are those of 01 and 02, 1 to 23 (enum ecch_refusal), and from 24 on those of a room (enum ecch_ROOM_refusal); 0 is
 * success. A flag that is handed over is false if it is 0, else true; one that is handed back is 0 or 1.
 *
 * Arrays that are filled: every number of the layout is set in every answer, 0 where it does not apply. Of a shorter array what fits is
 * set, from index 0 on; of a longer one the rest stays.
 */
#ifndef ECCHJULMINA_H
#define ECCHJULMINA_H

#include <stddef.h>
#include <stdint.h>

#ifdef __cplusplus
extern "C" {
#endif

/* The number of a refusal, and how many values it has. F is the length of the whole frame, its first byte and its length number included. */
enum ecch_refusal {
    ECCH_OK = 0,
    ECCH_INSUFFICIENT_BYTES = 1,          /* value 1: how many bytes are lacking at least */
    ECCH_MALFORMED_REMAINING_LENGTH = 2,  /* of a number in more bytes than it needs too */
    ECCH_PAYLOAD_SIZE_LIMIT_EXCEEDED = 3, /* value 1: F; value 2: the limit */
    ECCH_INVALID_PACKET_TYPE = 4,         /* value 1: the kind */
    ECCH_PAYLOAD_REQUIRED = 5,
    ECCH_KIND_NOT_CARRIED = 6,            /* value 1: the kind */
    ECCH_MALFORMED_PACKET = 7,
    ECCH_BOUNDARY_CROSSED = 8,            /* value 1: the length */
    ECCH_TOPIC_NOT_UTF8 = 9,              /* of text with U+0000 too */
    ECCH_INVALID_PROPERTY_TYPE = 10,      /* value 1: the identifier */
    ECCH_INVALID_QOS = 11,                /* value 1: the QoS */
    ECCH_PACKET_ID_ZERO = 12,
    ECCH_EMPTY_SUBSCRIPTION = 13,
    ECCH_INVALID_RETAIN_FORWARD_RULE = 14, /* value 1: the rule */
    ECCH_INVALID_REASON = 15,             /* value 1: the reason */
    ECCH_OUTGOING_PACKET_TOO_LARGE = 16,  /* value 1: the size; value 2: the limit */
    ECCH_PAYLOAD_TOO_LONG = 17,
    ECCH_STRING_TOO_LONG = 18,            /* value 1: the length */
    ECCH_NO_ROOM = 19,                    /* value 1: the size */
    ECCH_LIST_MISMATCH = 20,
    ECCH_NO_ITEM = 21,
    ECCH_DUPLICATE_PROPERTY = 22,         /* value 1: the identifier */
    ECCH_SUBSCRIPTION_ID_ZERO = 23
};

/* The kind of a packet that was read. */
enum ecch_kind {
    ECCH_PUBLISH = 3,
    ECCH_PUBACK = 4,
    ECCH_PUBREC = 5,
    ECCH_PUBREL = 6,
    ECCH_PUBCOMP = 7,
    ECCH_SUBSCRIBE = 8,
    ECCH_SUBACK = 9,
    ECCH_UNSUBSCRIBE = 10,
    ECCH_UNSUBACK = 11,
    ECCH_PINGREQ = 12,
    ECCH_PINGRESP = 13
};

/* A reason is a byte. Those of a PubAck or PubRec: */
enum ecch_puback_reason {
    ECCH_PUBACK_SUCCESS = 0x00,
    ECCH_PUBACK_NO_MATCHING_SUBSCRIBERS = 0x10,
    ECCH_PUBACK_UNSPECIFIED_ERROR = 0x80,
    ECCH_PUBACK_IMPLEMENTATION_SPECIFIC_ERROR = 0x83,
    ECCH_PUBACK_NOT_AUTHORIZED = 0x87,
    ECCH_PUBACK_TOPIC_NAME_INVALID = 0x90,
    ECCH_PUBACK_PACKET_IDENTIFIER_IN_USE = 0x91,
    ECCH_PUBACK_QUOTA_EXCEEDED = 0x97,
    ECCH_PUBACK_PAYLOAD_FORMAT_INVALID = 0x99
};

/* Of a PubRel or PubComp: */
enum ecch_pubrel_reason { ECCH_PUBREL_SUCCESS = 0x00, ECCH_PUBREL_PACKET_IDENTIFIER_NOT_FOUND = 0x92 };

/* Of a SubAck; a success says the QoS that is granted: */
enum ecch_suback_reason {
    ECCH_SUBACK_SUCCESS_AT_MOST_ONCE = 0x00,
    ECCH_SUBACK_SUCCESS_AT_LEAST_ONCE = 0x01,
    ECCH_SUBACK_SUCCESS_EXACTLY_ONCE = 0x02,
    ECCH_SUBACK_UNSPECIFIED = 0x80,
    ECCH_SUBACK_IMPLEMENTATION_SPECIFIC = 0x83,
    ECCH_SUBACK_NOT_AUTHORIZED = 0x87,
    ECCH_SUBACK_TOPIC_FILTER_INVALID = 0x8F,
    ECCH_SUBACK_PKID_IN_USE = 0x91,
    ECCH_SUBACK_QUOTA_EXCEEDED = 0x97,
    ECCH_SUBACK_SHARED_SUBSCRIPTIONS_NOT_SUPPORTED = 0x9E,
    ECCH_SUBACK_SUBSCRIPTION_ID_NOT_SUPPORTED = 0xA1,
    ECCH_SUBACK_WILDCARD_SUBSCRIPTIONS_NOT_SUPPORTED = 0xA2
};

/* Of an UnsubAck: */
enum ecch_unsuback_reason {
    ECCH_UNSUBACK_SUCCESS = 0x00,
    ECCH_UNSUBACK_NO_SUBSCRIPTION_EXISTED = 0x11,
    ECCH_UNSUBACK_UNSPECIFIED_ERROR = 0x80,
    ECCH_UNSUBACK_IMPLEMENTATION_SPECIFIC_ERROR = 0x83,
    ECCH_UNSUBACK_NOT_AUTHORIZED = 0x87,
    ECCH_UNSUBACK_TOPIC_FILTER_INVALID = 0x8F,
    ECCH_UNSUBACK_PACKET_IDENTIFIER_IN_USE = 0x91
};

/* `answer`, and the first numbers of `record`. */
enum ecch_answer_layout {
    ECCH_SIZE = 0,    /* size and write: the size; 0 if refused */
    ECCH_VALUE_1 = 1, /* the refusal's values; 0 where it has none */
    ECCH_VALUE_2 = 2,
    ECCH_ANSWER_LEN = 3
};

/* `record`. A place is a start and a length in the stream. A property that may be absent has 1 before its value if it is present; if it
 * is absent there are zeros. */
enum ecch_record_layout {
    ECCH_TAKEN = 0, /* bytes of the stream used up, by a packet or by a refusal */
    /* 1 and 2: the values of a refusal, as above */
    ECCH_KIND = 3, /* enum ecch_kind; 0 if refused: then all that follows is 0 */
    ECCH_PKID = 4, /* every kind but the pings; Publish: 0 at QoS 0 */
    ECCH_DUP = 5,  /* Publish */
    ECCH_QOS = 6,
    ECCH_RETAIN = 7,
    ECCH_REASON = 8, /* PubAck, PubRec, PubRel, PubComp; those of a SubAck or UnsubAck are items */
    ECCH_TOPIC_START = 9, /* Publish */
    ECCH_TOPIC_LEN = 10,
    ECCH_PAYLOAD_START = 11,
    ECCH_PAYLOAD_LEN = 12,
    ECCH_FILTERS_START = 13, /* Subscribe: where the filters stand (ecch_filter, ecch_next_filter) */
    ECCH_FILTERS_LEN = 14,
    ECCH_BLOCK = 15, /* 1 if there are properties, and where they stand (ecch_user_property, ecch_subscription_identifier, ecch_property) */
    ECCH_BLOCK_START = 16,
    ECCH_BLOCK_LEN = 17,
    ECCH_FORMAT = 18, /* Publish: payload format indicator */
    ECCH_FORMAT_VALUE = 19,
    ECCH_EXPIRY = 20, /* Publish: message expiry interval */
    ECCH_EXPIRY_VALUE = 21,
    ECCH_ALIAS = 22, /* Publish: topic alias */
    ECCH_ALIAS_VALUE = 23,
    ECCH_RESPONSE = 24, /* Publish: response topic */
    ECCH_RESPONSE_START = 25,
    ECCH_RESPONSE_LEN = 26,
    ECCH_CORRELATION = 27, /* Publish: correlation data */
    ECCH_CORRELATION_START = 28,
    ECCH_CORRELATION_LEN = 29,
    ECCH_CONTENT = 30, /* Publish: content type */
    ECCH_CONTENT_START = 31,
    ECCH_CONTENT_LEN = 32,
    ECCH_REASON_STRING = 33, /* PubAck, PubRec, PubRel, PubComp, SubAck, UnsubAck: reason string */
    ECCH_REASON_STRING_START = 34,
    ECCH_REASON_STRING_LEN = 35,
    ECCH_SUBSCRIPTION = 36, /* Subscribe: subscription identifier; those of a Publish are items */
    ECCH_SUBSCRIPTION_VALUE = 37,
    ECCH_REASONS_START = 38, /* SubAck, UnsubAck: where the reasons stand, a byte each (ecch_reason) */
    ECCH_REASONS_LEN = 39,
    ECCH_TOPICS_START = 40, /* Unsubscribe: where the topics stand (ecch_topic, ecch_next_topic) */
    ECCH_TOPICS_LEN = 41,
    ECCH_PROPERTIES_START = 42, /* every kind: where the properties start in the stream, after the block's length, and where they end; */
    ECCH_PROPERTIES_END = 43,   /* equal if there are none: the index after that length, or F where none was sent (a ping; R = 2 or 3) */
    ECCH_RECORD_LEN = 44
};

/* `item` of ecch_user_property: the places of key and value. */
enum ecch_user_layout { ECCH_KEY_START = 0, ECCH_KEY_LEN = 1, ECCH_ITEM_VALUE_START = 2, ECCH_ITEM_VALUE_LEN = 3, ECCH_USER_LEN = 4 };

/* `item` of ecch_subscription_identifier. */
enum ecch_identifier_layout { ECCH_NUMBER = 0, ECCH_IDENTIFIER_LEN = 1 };

/* `item` of ecch_filter: the place of the text, and the options. */
enum ecch_filter_layout {
    ECCH_PATH_START = 0,
    ECCH_PATH_LEN = 1,
    ECCH_FILTER_QOS = 2,
    ECCH_NO_LOCAL = 3,
    ECCH_PRESERVE_RETAIN = 4,
    ECCH_FORWARD_RULE = 5,
    ECCH_FILTER_LEN = 6
};

/* `item` of ecch_reason. */
enum ecch_reason_layout { ECCH_REASON_ITEM = 0, ECCH_REASON_NUMBERS = 1 };

/* `item` of ecch_topic: its place. */
enum ecch_topic_layout { ECCH_TOPIC_ITEM_START = 0, ECCH_TOPIC_ITEM_LEN = 1, ECCH_TOPIC_NUMBERS = 2 };

/* `item` of ecch_property. */
enum ecch_property_layout {
    ECCH_PROPERTY_NEXT = 0, /* the index after it, where the next one begins; or the refusal's value */
    ECCH_PROPERTY_IDENTIFIER = 1,
    ECCH_PROPERTY_NUMBER = 2, /* 0 if the value is no number */
    ECCH_PROPERTY_START = 3, /* the place of a text, of bytes, or of a user property's key */
    ECCH_PROPERTY_LEN = 4,
    ECCH_PROPERTY_SECOND_START = 5, /* the place of a user property's value */
    ECCH_PROPERTY_SECOND_LEN = 6,
    ECCH_PROPERTY_NUMBERS = 7
};

/* `item` of ecch_next_filter: the index after it, or the refusal's value; the place of the text; the options. */
enum ecch_next_filter_layout {
    ECCH_NEXT_FILTER_NEXT = 0,
    ECCH_NEXT_FILTER_START = 1,
    ECCH_NEXT_FILTER_LEN = 2,
    ECCH_NEXT_FILTER_QOS = 3,
    ECCH_NEXT_FILTER_NO_LOCAL = 4,
    ECCH_NEXT_FILTER_PRESERVE_RETAIN = 5,
    ECCH_NEXT_FILTER_RULE = 6,
    ECCH_NEXT_FILTER_NUMBERS = 7
};

/* `item` of ecch_next_topic: the index after it, or the refusal's value; its place; 0 from 3 to 6. */
enum ecch_next_topic_layout { ECCH_NEXT_TOPIC_NEXT = 0, ECCH_NEXT_TOPIC_START = 1, ECCH_NEXT_TOPIC_LEN = 2, ECCH_NEXT_TOPIC_NUMBERS = 7 };

/* ---- reading. A stream is only read. */

/* The packet at the start of the stream: 0, or the refusal's number (1 to 15, 22, 23). If `limited` is not 0, F may be `limit` at most,
 * and 0 is a limit. */
uint32_t ecch_read(const uint8_t *stream, size_t stream_len, uint8_t limited, size_t limit, uint64_t *record, size_t record_len);

/* 0 if all of a place lies in the stream: the part is then stream + start, and may be empty; else 21, and there is no part. */
uint32_t ecch_part(const uint8_t *stream, size_t stream_len, size_t start, size_t len);

/* The n-th item, n from 0, of the list at a place of the stream: 0, or 21 if there is none, or if the place is no well-formed block of
 * the kind (run of filters, reasons or topics). `kind` is 3 to 11; any other is 21. ecch_subscription_identifier asks for the
 * block of a Publish, and reads the place by that row; the identifier of a Subscribe stands in its record. Each call goes over the list
 * from its start: to have every item, walk it with ecch_property, ecch_next_filter or ecch_next_topic. */
uint32_t ecch_user_property(const uint8_t *stream, size_t stream_len, uint8_t kind, size_t start, size_t len, size_t n, uint64_t *item, size_t item_len);
uint32_t ecch_subscription_identifier(const uint8_t *stream, size_t stream_len, size_t start, size_t len, size_t n, uint64_t *item, size_t item_len);
uint32_t ecch_filter(const uint8_t *stream, size_t stream_len, size_t start, size_t len, size_t n, uint64_t *item, size_t item_len);
uint32_t ecch_topic(const uint8_t *stream, size_t stream_len, size_t start, size_t len, size_t n, uint64_t *item, size_t item_len);

/* The same of a reason; `kind` is 9 or 11; any other is 21. The reasons that ecch_read found are the bytes of their place: to have every
 * one, take them from the stream. */
uint32_t ecch_reason(const uint8_t *stream, size_t stream_len, uint8_t kind, size_t start, size_t len, size_t n, uint64_t *item, size_t item_len);

/* The property, the filter, or the topic, at index `at` of the stream, in a block or run that ends at index `end` of it: 0, or the
 * refusal's number (property: 2, 7, 8, 9, 10, 23; filter: 7, 8, 9, 11, 14; topic: 7, 8, 9). An `end` beyond the stream is 21. `kind` is 3
 * to 11; any other is 21. To walk what ecch_read found, hand over the end of the block (of the run), which is its start and its length,
 * and begin at its start; the item begins where the last one ended, and the last one ends at that end. Nothing from the end on is read,
 * and what stands before the index is not looked at, so that no property is 22 here. */
uint32_t ecch_property(const uint8_t *stream, size_t stream_len, uint8_t kind, size_t at, size_t end, uint64_t *item, size_t item_len);
uint32_t ecch_next_filter(const uint8_t *stream, size_t stream_len, size_t at, size_t end, uint64_t *item, size_t item_len);
uint32_t ecch_next_topic(const uint8_t *stream, size_t stream_len, size_t at, size_t end, uint64_t *item, size_t item_len);

/* The name of a refusal, as in 01 and 02: how many bytes it has (24 at most), 0 for a number that is none of 1 to 39. Its bytes are set
 * from index 0 on, what fits of them; no 0 follows them. */
size_t ecch_name(uint32_t number, uint8_t *name, size_t name_len);

/* ---- size and write: 0, or the refusal's number. `answer` has the size, or the refusal's values. A refused write leaves `out` as it
 * stood; an accepted one sets the first `size` bytes of it and keeps the rest. If `limited` is not 0, the size may be `limit` at most.
 *
 * `.._on` says whether the value behind it is present; `block` whether there is a property set at all. What is handed over for a value that
 * is off is refusal 20, bytes as well as a number other than 0; so is anything for a set that is absent. User properties are one run of
 * bytes, and the lengths of key, value, key, value and so on; filters are one run of bytes, their lengths, and an options byte each (bits
 * 0-1 QoS, 2 no-local, 3 preserve-retain, 4-5 forward rule); topics are one run of bytes, and their lengths; reasons are a byte each.
 *
 * Which refusal comes first: 20; then 11 for a QoS of a Publish above 2, by size too; then field by field as written 18 and 9, with 14 and
 * 11 for a filter, and 15 for a reason that its kind does not list, which stands before the texts of a PubAck, PubRec, PubRel or PubComp
 * and behind those of a SubAck or UnsubAck; 17 for the length; 16; 12; 17 and 23 for subscription identifiers in order; 13; 19. Size alone
 * refuses with 20, that 11, and 17 for the length. */

uint32_t ecch_publish_size(
    uint8_t dup, uint8_t qos, uint8_t retain, uint16_t pkid,
    const uint8_t *topic, size_t topic_len,
    uint8_t block,
    uint8_t format_on, uint8_t format,
    uint8_t expiry_on, uint32_t expiry,
    uint8_t alias_on, uint16_t alias,
    uint8_t response_on, const uint8_t *response, size_t response_len,
    uint8_t correlation_on, const uint8_t *correlation, size_t correlation_len,
    const uint8_t *user, size_t user_len, const size_t *user_lengths, size_t user_lengths_len,
    const uint32_t *identifiers, size_t identifiers_len,
    uint8_t content_on, const uint8_t *content, size_t content_len,
    const uint8_t *payload, size_t payload_len,
    uint64_t *answer, size_t answer_len);

uint32_t ecch_publish_write(
    uint8_t dup, uint8_t qos, uint8_t retain, uint16_t pkid,
    const uint8_t *topic, size_t topic_len,
    uint8_t block,
    uint8_t format_on, uint8_t format,
    uint8_t expiry_on, uint32_t expiry,
    uint8_t alias_on, uint16_t alias,
    uint8_t response_on, const uint8_t *response, size_t response_len,
    uint8_t correlation_on, const uint8_t *correlation, size_t correlation_len,
    const uint8_t *user, size_t user_len, const size_t *user_lengths, size_t user_lengths_len,
    const uint32_t *identifiers, size_t identifiers_len,
    uint8_t content_on, const uint8_t *content, size_t content_len,
    const uint8_t *payload, size_t payload_len,
    uint8_t limited, size_t limit,
    uint8_t *out, size_t out_len,
    uint64_t *answer, size_t answer_len);

uint32_t ecch_subscribe_size(
    uint16_t pkid,
    uint8_t block,
    uint8_t identifier_on, uint32_t identifier,
    const uint8_t *user, size_t user_len, const size_t *user_lengths, size_t user_lengths_len,
    const uint8_t *filters, size_t filters_len, const size_t *filter_lengths, size_t filter_lengths_len,
    const uint8_t *options, size_t options_len,
    uint64_t *answer, size_t answer_len);

uint32_t ecch_subscribe_write(
    uint16_t pkid,
    uint8_t block,
    uint8_t identifier_on, uint32_t identifier,
    const uint8_t *user, size_t user_len, const size_t *user_lengths, size_t user_lengths_len,
    const uint8_t *filters, size_t filters_len, const size_t *filter_lengths, size_t filter_lengths_len,
    const uint8_t *options, size_t options_len,
    uint8_t limited, size_t limit,
    uint8_t *out, size_t out_len,
    uint64_t *answer, size_t answer_len);

uint32_t ecch_puback_size(
    uint16_t pkid, uint8_t reason,
    uint8_t block,
    uint8_t reason_string_on, const uint8_t *reason_string, size_t reason_string_len,
    const uint8_t *user, size_t user_len, const size_t *user_lengths, size_t user_lengths_len,
    uint64_t *answer, size_t answer_len);

uint32_t ecch_puback_write(
    uint16_t pkid, uint8_t reason,
    uint8_t block,
    uint8_t reason_string_on, const uint8_t *reason_string, size_t reason_string_len,
    const uint8_t *user, size_t user_len, const size_t *user_lengths, size_t user_lengths_len,
    uint8_t limited, size_t limit,
    uint8_t *out, size_t out_len,
    uint64_t *answer, size_t answer_len);

uint32_t ecch_pubrec_size(
    uint16_t pkid, uint8_t reason,
    uint8_t block,
    uint8_t reason_string_on, const uint8_t *reason_string, size_t reason_string_len,
    const uint8_t *user, size_t user_len, const size_t *user_lengths, size_t user_lengths_len,
    uint64_t *answer, size_t answer_len);

uint32_t ecch_pubrec_write(
    uint16_t pkid, uint8_t reason,
    uint8_t block,
    uint8_t reason_string_on, const uint8_t *reason_string, size_t reason_string_len,
    const uint8_t *user, size_t user_len, const size_t *user_lengths, size_t user_lengths_len,
    uint8_t limited, size_t limit,
    uint8_t *out, size_t out_len,
    uint64_t *answer, size_t answer_len);

uint32_t ecch_pubrel_size(
    uint16_t pkid, uint8_t reason,
    uint8_t block,
    uint8_t reason_string_on, const uint8_t *reason_string, size_t reason_string_len,
    const uint8_t *user, size_t user_len, const size_t *user_lengths, size_t user_lengths_len,
    uint64_t *answer, size_t answer_len);

uint32_t ecch_pubrel_write(
    uint16_t pkid, uint8_t reason,
    uint8_t block,
    uint8_t reason_string_on, const uint8_t *reason_string, size_t reason_string_len,
    const uint8_t *user, size_t user_len, const size_t *user_lengths, size_t user_lengths_len,
    uint8_t limited, size_t limit,
    uint8_t *out, size_t out_len,
    uint64_t *answer, size_t answer_len);

uint32_t ecch_pubcomp_size(
    uint16_t pkid, uint8_t reason,
    uint8_t block,
    uint8_t reason_string_on, const uint8_t *reason_string, size_t reason_string_len,
    const uint8_t *user, size_t user_len, const size_t *user_lengths, size_t user_lengths_len,
    uint64_t *answer, size_t answer_len);

uint32_t ecch_pubcomp_write(
    uint16_t pkid, uint8_t reason,
    uint8_t block,
    uint8_t reason_string_on, const uint8_t *reason_string, size_t reason_string_len,
    const uint8_t *user, size_t user_len, const size_t *user_lengths, size_t user_lengths_len,
    uint8_t limited, size_t limit,
    uint8_t *out, size_t out_len,
    uint64_t *answer, size_t answer_len);

uint32_t ecch_suback_size(
    uint16_t pkid,
    uint8_t block,
    uint8_t reason_string_on, const uint8_t *reason_string, size_t reason_string_len,
    const uint8_t *user, size_t user_len, const size_t *user_lengths, size_t user_lengths_len,
    const uint8_t *reasons, size_t reasons_len,
    uint64_t *answer, size_t answer_len);

uint32_t ecch_suback_write(
    uint16_t pkid,
    uint8_t block,
    uint8_t reason_string_on, const uint8_t *reason_string, size_t reason_string_len,
    const uint8_t *user, size_t user_len, const size_t *user_lengths, size_t user_lengths_len,
    const uint8_t *reasons, size_t reasons_len,
    uint8_t limited, size_t limit,
    uint8_t *out, size_t out_len,
    uint64_t *answer, size_t answer_len);

uint32_t ecch_unsubscribe_size(
    uint16_t pkid,
    uint8_t block,
    const uint8_t *user, size_t user_len, const size_t *user_lengths, size_t user_lengths_len,
    const uint8_t *topics, size_t topics_len, const size_t *topic_lengths, size_t topic_lengths_len,
    uint64_t *answer, size_t answer_len);

uint32_t ecch_unsubscribe_write(
    uint16_t pkid,
    uint8_t block,
    const uint8_t *user, size_t user_len, const size_t *user_lengths, size_t user_lengths_len,
    const uint8_t *topics, size_t topics_len, const size_t *topic_lengths, size_t topic_lengths_len,
    uint8_t limited, size_t limit,
    uint8_t *out, size_t out_len,
    uint64_t *answer, size_t answer_len);

uint32_t ecch_unsuback_size(
    uint16_t pkid,
    uint8_t block,
    uint8_t reason_string_on, const uint8_t *reason_string, size_t reason_string_len,
    const uint8_t *user, size_t user_len, const size_t *user_lengths, size_t user_lengths_len,
    const uint8_t *reasons, size_t reasons_len,
    uint64_t *answer, size_t answer_len);

uint32_t ecch_unsuback_write(
    uint16_t pkid,
    uint8_t block,
    uint8_t reason_string_on, const uint8_t *reason_string, size_t reason_string_len,
    const uint8_t *user, size_t user_len, const size_t *user_lengths, size_t user_lengths_len,
    const uint8_t *reasons, size_t reasons_len,
    uint8_t limited, size_t limit,
    uint8_t *out, size_t out_len,
    uint64_t *answer, size_t answer_len);

/* Of either ping. */
uint32_t ecch_ping_size(uint64_t *answer, size_t answer_len);
uint32_t ecch_pingreq_write(uint8_t limited, size_t limit, uint8_t *out, size_t out_len, uint64_t *answer, size_t answer_len);
uint32_t ecch_pingresp_write(uint8_t limited, size_t limit, uint8_t *out, size_t out_len, uint64_t *answer, size_t answer_len);

/* Topics and filters, over any bytes (crate c_topics). Each answers 1 for true and 0 for false, and nothing is refused or written. '+' and '#'
 * are wildcards, '/' separates levels; no text is tested for UTF-8, for U+0000 or for its length. Stack: some 2 KiB at
 * most for texts of up to 65,535 bytes, 10 KiB for any others (docs/PERFORMANCE.md).
 *
 * ecch_has_wildcards: a '+' or a '#' stands somewhere in s.
 * ecch_valid_topic: neither does. As in rumqttc the empty topic is valid; MQTT 4.7.3 asks for a character.
 * ecch_valid_filter: it is not empty, each '+' and '#' fills its level, and '#' stands in the last one alone.
 * ecch_matches: the filter matches the topic, level by level: '#' what is left of the topic, none included, '+' one level that is not '#', any
 *   other level itself; and a filter that begins with a wildcard matches no topic that begins with '$' (MQTT 4.7.2). Test both before: of a
 *   filter that is not valid, '#' as a level counts wherever it stands, and '+' or '#' within a level is a character like others. */
uint8_t ecch_has_wildcards(const uint8_t *s, size_t s_len);
uint8_t ecch_valid_topic(const uint8_t *topic, size_t topic_len);
uint8_t ecch_valid_filter(const uint8_t *filter, size_t filter_len);
uint8_t ecch_matches(const uint8_t *topic, size_t topic_len, const uint8_t *filter, size_t filter_len);

/* ---- topics by alias (MQTT 3.3.2.3.4): a broker sends a topic once with a Topic Alias, and then leaves it empty.
 *
 * The table is ECCH_ALIAS_TABLE_LEN bytes of the caller's: for aliases 1 to 16 in turn a length byte, 0 if never set, and 128 bytes for the
 * topic. Fill it with zeros where a connection begins, hand every Publish that is read to ecch_alias_learn in the order of the stream, and
 * write to it by no other way: then it holds the last topic of each alias, which is proved. Any bytes may be handed over as a table: one of
 * another length, or with a length byte above 128, is refusal 24. ecch_alias_learn writes to the table, ecch_topic_in_force reads it alone.
 *
 * `start`, `len`: where the packet's own topic stands in the stream (ECCH_TOPIC_START, ECCH_TOPIC_LEN of its record); a place that does not
 * lie in the stream is an empty topic. `alias_on`, `alias`: its alias, if it has one (ECCH_ALIAS, ECCH_ALIAS_VALUE). Where a message has more
 * than one of the faults below, the first of them is given. None has values. */
enum ecch_alias_refusal {
    ECCH_ALIAS_TABLE_BAD = 24, /* the table has the wrong size, or a stored length above 128 */
    ECCH_ALIAS_INVALID = 25,   /* alias 0 or above 16 */
    ECCH_TOPIC_MISSING = 26,   /* empty topic and no alias */
    ECCH_ALIAS_UNKNOWN = 27,   /* empty topic and alias never set */
    ECCH_ALIAS_NO_ROOM = 28    /* topic over 128 bytes with an alias */
};

enum ecch_alias_table { ECCH_ALIAS_TABLE_LEN = 2064 };

/* `item` of ecch_topic_in_force: which slice, and the place there; zeros if refused. */
enum ecch_force_layout { ECCH_FORCE_SLICE = 0, ECCH_FORCE_START = 1, ECCH_FORCE_LEN = 2, ECCH_FORCE_NUMBERS = 3 };
enum ecch_force_slice { ECCH_IN_STREAM = 1, ECCH_IN_TABLE = 2 };

/* Takes a message in: 0, or the refusal's number. A topic that is sent with an alias is stored for it: its length byte and its bytes are
 * written, and no other byte of the table. A refusal leaves the table alone. */
uint32_t ecch_alias_learn(const uint8_t *stream, size_t stream_len, size_t start, size_t len, uint8_t alias_on, uint16_t alias, uint8_t *table, size_t table_len);

/* Where the topic in force lies: 0, or the refusal's number. It is the packet's own topic, in the stream, or if that is empty the one that is
 * stored for the alias, in the table; the place lies within that slice, and has one byte at least. It may be asked before the message is
 * learnt or after. A place in the table is good until the alias is set anew. */
uint32_t ecch_topic_in_force(const uint8_t *stream, size_t stream_len, size_t start, size_t len, uint8_t alias_on, uint16_t alias, const uint8_t *table, size_t table_len, uint64_t *item, size_t item_len);

/* ---- a stream that arrives in pieces (02, P10; crate c_pieces). The caller lends a buffer of 5 to 65,536 bytes, in which an unfinished
 * frame is kept, and a state of four numbers, all 0 before the first piece. Both are the callee's until the stream ends: while nobody else
 * writes them, and the limit and the buffer's length stay, the frames are those of the whole stream, however it is cut.
 *
 * With each piece that comes in, call ecch_next_frame. If ECCH_FRAME_PLACE is 1, the next frame is the first ECCH_FRAME_LEN bytes of the
 * piece, and nothing was copied; if it is 2, the first ECCH_FRAME_LEN bytes of the buffer: hand those bytes to ecch_read, which gives the
 * packet or its refusal; its places lie in the slice that was handed over, and a frame in the buffer stays until the next call. Then call
 * again with the rest of the piece, from ECCH_FRAME_USED on. If it is 0 and the result is 0, the piece is taken in and bytes are lacking.
 * A refusal within a frame comes from ecch_read, and the stream goes on at the next frame. */

/* The refusals of ecch_next_frame besides 2 and 3. */
enum ecch_pieces_refusal {
    ECCH_BAD_BUFFER = 35,    /* the buffer has not 5 to 65,536 bytes, or fewer than the state says that it holds; or the numbers are no state */
    ECCH_FRAME_TOO_LONG = 36 /* the frame is longer than the buffer */
};

/* `state`. Any numbers may be handed over: fewer than four, or an ECCH_STATE_ENDED that is none of 0, 2, 3 and 36, get 35, and nothing
 * changes; all others are taken at their word. Of a longer array the rest stays. */
enum ecch_state_layout {
    ECCH_STATE_HELD = 0,  /* so many bytes at the start of the buffer are held */
    ECCH_STATE_ENDED = 1, /* 0 while the stream goes on, else the refusal that ended it: 2, 3 or 36 */
    ECCH_STATE_VALUE_1 = 2, /* its values */
    ECCH_STATE_VALUE_2 = 3,
    ECCH_STATE_NUMBERS = 4
};

/* `item` of ecch_next_frame. */
enum ecch_frame_layout {
    ECCH_FRAME_USED = 0,    /* bytes of the piece used up; 0 if refused */
    ECCH_FRAME_VALUE_1 = 1, /* the refusal's values */
    ECCH_FRAME_VALUE_2 = 2,
    ECCH_FRAME_PLACE = 3, /* 1: a frame at the start of the piece; 2: at the start of the buffer; 0: none */
    ECCH_FRAME_LEN = 4,   /* its length */
    ECCH_FRAME_NUMBERS = 5
};
enum ecch_frame_place { ECCH_IN_PIECE = 1, ECCH_IN_BUFFER = 2 };

/* The next frame, of the bytes held and the piece behind them: 0, or the refusal's number. 2 and 3 (of a header) and 36 end the stream: every
 * later call gives that refusal again. 35 ends nothing. The header alone is looked at: 36 comes as soon as it is complete, after 3. If
 * `limited` is not 0, F may be `limit` at most. */
uint32_t ecch_next_frame(
    uint8_t limited, size_t limit,
    uint64_t *state, size_t state_len,
    uint8_t *buffer, size_t buffer_len,
    const uint8_t *piece, size_t piece_len,
    uint64_t *item, size_t item_len);

/* ---- walking the user properties of a frame, one after another; the caller keeps the position. */

/* `item` of ecch_next_user: the index after it, where the next call begins, or where the walk stands if there is none; the places of key and
 * value. */
enum ecch_next_user_layout {
    ECCH_NEXT_USER_NEXT = 0,
    ECCH_NEXT_USER_KEY_START = 1,
    ECCH_NEXT_USER_KEY_LEN = 2,
    ECCH_NEXT_USER_VALUE_START = 3,
    ECCH_NEXT_USER_VALUE_LEN = 4,
    ECCH_NEXT_USER_NUMBERS = 5
};

/* The next user property from index `at` on, in the bytes before index `end`, of a block of `kind`: 0, or 21 if there is none left, for ever.
 * `kind` is 3 to 11; any other is 21, and so is an `end` past the frame. To walk what ecch_read found, hand over the same stream and
 * ECCH_KIND, begin at ECCH_BLOCK_START, and let `end` be ECCH_BLOCK_START + ECCH_BLOCK_LEN: the answers are the user properties of the
 * record, in order, then 21. Of a frame that was refused all of these are 0, and there is none. Other properties are passed over; bytes that
 * are no property end the walk. */
uint32_t ecch_next_user(const uint8_t *frame, size_t frame_len, uint8_t kind, size_t at, size_t end, uint64_t *item, size_t item_len);

/* ---- the filters of a Subscribe in a table that is lent as an array of numbers, three for an entry (P7 of 02). */
enum ecch_table_refusal {
    ECCH_FILTER_TABLE_FULL = 37, /* value 1: how many places are needed */
    ECCH_NOT_SUBSCRIBE = 38
};

/* An entry of `table`: where the text stands in the stream, and the options byte with bits 6 and 7 clear. */
enum ecch_filter_entry_layout {
    ECCH_ENTRY_START = 0,
    ECCH_ENTRY_LEN = 1,
    ECCH_ENTRY_OPTIONS = 2,
    ECCH_ENTRY_NUMBERS = 3
};

/* `answer` of ecch_filter_table. */
enum ecch_table_layout {
    ECCH_TABLE_TAKEN = 0,   /* bytes of the stream used up, as ECCH_TAKEN; F if the frame is accepted, whatever the answer */
    ECCH_TABLE_VALUE_1 = 1, /* the refusal's values */
    ECCH_TABLE_VALUE_2 = 2,
    ECCH_TABLE_FILLED = 3,  /* how many entries were filled; 0 if refused */
    ECCH_TABLE_NUMBERS = 4
};

/* The filters of the Subscribe at the start of the stream, read with no limit, in order: 0, or the refusal's number: 37 if there are more of
 * them than places, and only then; 38 for an accepted frame of another kind; else the reader's. `table` has a place for each three numbers;
 * one or two numbers behind the last place are never touched. Places past the last filter keep what they held, and a refused call leaves all
 * of `table` as it was. */
uint32_t ecch_filter_table(
    const uint8_t *stream, size_t stream_len,
    uint64_t *table, size_t table_len,
    uint64_t *answer, size_t answer_len);

/* ---- the client's record of outgoing messages that await an answer (P4 of 02). The table is `table`, a lent byte for each identifier from 1
   to ECCH_IDENTIFIERS: table[n - 1] is 0 if identifier n is free, 1, 2 or 3 if it waits for PubAck, PubRec or PubComp. To every call but
   ecch_inflight_start bytes of another length, or with another number among them, are no table: ECCH_BAD_TABLE, and they are left as they
   are. A refused call leaves the table as it was and sets `answer`, which is one number, to 0. */
enum ecch_inflight { ECCH_IDENTIFIERS = 1024 };
enum ecch_inflight_refusal {
    ECCH_IN_FLIGHT_FULL = 29,
    ECCH_NO_CLAIM = 30,
    ECCH_NOT_WAITING = 31,
    ECCH_BAD_TABLE = 39
};

/* Every identifier free, whatever the bytes were: 0, or 39 for another length, and then they are left as they are. */
uint32_t ecch_inflight_start(uint8_t *table, size_t table_len);

/* An identifier for a message of QoS 1 or 2 about to be sent, the smallest free one: it is stored in `answer`, and waits from now on. 29 if
   none is free, 30 for QoS 0, 11 for a QoS above 2: `answer` is 0 for it too, the QoS is not stored. */
uint32_t ecch_inflight_claim(uint8_t qos, uint8_t *table, size_t table_len, uint64_t *answer, size_t answer_len);

/* An acknowledgement that was read: its kind (ECCH_PUBACK, ECCH_PUBREC, ECCH_PUBCOMP; any other is 31), identifier and reason, which counts
   for a PubRec alone. `answer` is what the identifier waits for now: 0 if it was freed, 3 if a PubRec below 0x80 moved it on. 31 if it
   does not wait for this. */
uint32_t ecch_inflight_acked(uint8_t kind, uint16_t id, uint8_t reason, uint8_t *table, size_t table_len, uint64_t *answer, size_t answer_len);

/* How many identifiers wait: 0, and their number is stored in `answer`; or 39 for what is no table. */
uint32_t ecch_inflight_waiting(const uint8_t *table, size_t table_len, uint64_t *answer, size_t answer_len);

/* ---- a journal: that table kept through a power cut in a lent area of two or more whole blocks of 512 bytes (P11 of 02), else
   ECCH_BAD_AREA before all else, and nothing changed. Start an area once; from then on only saves may write to it. If the power is cut
   while a save's block is being stored, and leaves it as it was, as it should be, or not good, recovery gives the table before that save or
   after it. An area that was written when identifiers went to 128 recovers unchanged, with the places above free; a block in it that
   was not good only for a mark above 128 would count as good. */
enum ecch_journal_refusal {
    ECCH_BAD_AREA = 32,
    ECCH_JOURNAL_EMPTY = 33,
    ECCH_JOURNAL_ENDED = 34
};

/* Zeroes the area. */
uint32_t ecch_journal_start(uint8_t *area, size_t area_len);

/* `answer` of ecch_journal_save. */
enum ecch_save_layout { ECCH_SAVE_NUMBER = 0, ECCH_SAVE_BLOCK = 1, ECCH_SAVE_NUMBERS = 2 };

/* Stores the table under the next number. `answer` is two numbers: the save's, and which block of 512 bytes, from 0, it stored: with the area in a
   file, write these 512 bytes and no others. 34 after the largest 64-bit number, 39 if `table` is no table; the area stays then,
   and `answer` is 0, 0. If writing the block to the file fails, put its 512 bytes back as they were before the next save: the save was not made. */
uint32_t ecch_journal_save(const uint8_t *table, size_t table_len, uint8_t *area, size_t area_len, uint64_t *answer, size_t answer_len);

/* The table of the latest good save into the first ECCH_IDENTIFIERS bytes of `table`, and its number into `answer`. 33 if there is none: a fresh
   table. 32 for a bad area, and 39 if `table` has fewer bytes: `table` is left as it was; with 39 `answer` has the number all the same. */
uint32_t ecch_journal_recover(const uint8_t *area, size_t area_len, uint8_t *table, size_t table_len, uint64_t *answer, size_t answer_len);

/* ---- the tidy form of a frame, for an archive (P14 of 02; crate c_tidy): the frame as it would be written from the record that ecch_read gives.
 * It reads as the same record, and tidied again it stays; two frames have the same tidy form exactly when their records say the same, wherever
 * in a stream they stand. It has as many bytes as the frame at most, but for an acknowledgement of five bytes with a reason other than
 * success, which becomes six. */

/* `answer` of ecch_tidy. */
enum ecch_tidy_layout {
    ECCH_TIDY_SIZE = 0,    /* bytes that were put; 0 if refused */
    ECCH_TIDY_VALUE_1 = 1, /* the refusal's values */
    ECCH_TIDY_VALUE_2 = 2,
    ECCH_TIDY_TAKEN = 3, /* bytes of the stream used up, by a frame or by a refusal; 0 with 19 */
    ECCH_TIDY_NUMBERS = 4
};

/* The tidy form of the frame at the start of the stream: 0, or the refusal's number: those of ecch_read with no limit (1, 2, 4 to 15, 22, 23), then
 * 19 with the size if `out` is shorter than that. A refused call leaves every byte of `out` as it stood; an accepted one sets the first
 * ECCH_TIDY_SIZE bytes and keeps the rest. */
uint32_t ecch_tidy(const uint8_t *stream, size_t stream_len, uint8_t *out, size_t out_len, uint64_t *answer, size_t answer_len);

/* A pointer for what has length 0: aligned, and not NULL. C++ needs a cast to the type of the parameter. */
#define ECCH_NOTHING ((void *)sizeof(size_t))

#ifdef __cplusplus
}
#endif

#endif

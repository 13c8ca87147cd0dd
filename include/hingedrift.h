/*
 * Hingedrift for C: a Zigbee attribute server over a store of values, and a reporting table that says which attributes report, how
 * often, and what each last reported.
 *
 * It also reads what a server sends back: the replies, and Report Attributes frames.
 *
 * The caller keeps the store and the table as bytes and lends them to each call, with their length. A table is HD_TABLE_BYTES bytes;
 * hd_table_new makes them one, and docs/TABLE.md has the layout. A store's layout is that of document 01.
 *
 * Every function returns one of the numbers below. A refusal, any number but HD_OK, writes 0 through every pointer to a result and
 * zeros to the whole reply buffer. Store and table are then as they were, with three exceptions of hd_handle_request: after HD_RECORD_CUT
 * what the earlier records did stays done, after HD_TOO_LONG what the records up to there did, and after HD_NOTHING_TO_SEND all that the
 * command did; and one of hd_restore, which leaves an empty table after HD_NOT_A_SAVED_FORM. What goes in and comes back through one pointer, the last id
 * of hd_report_turn, is as it came.
 *
 * No pointer may be null, also not one that is lent with length 0; otherwise a length of 0 may come with any pointer, one past the end of an
 * array too, since nothing is read or written there. Between the buffers and results of one call no byte may be shared: lent buffers do not
 * overlap. A pointer to numbers wider than a byte is aligned for them, as C has it of any object.
 */
#ifndef HINGEDRIFT_H
#define HINGEDRIFT_H

#include <stddef.h>
#include <stdint.h>

#ifdef __cplusplus
extern "C" {
#endif

/* The bytes of a table. It has room for 128 attributes. */
#define HD_TABLE_BYTES 3841

/* The bytes of the longest saved form of a table: one byte, and 19 for each of 128 attributes. */
#define HD_SAVED_BYTES 2433

/* What a call returns: that it was done, */
#define HD_OK 0
/* or why not. The request is for another cluster than the store's. */
#define HD_OTHER_CLUSTER 1
/* The request, or the frame to read, is too short for a header. */
#define HD_HEADER_SHORT 2
/* Its frame type is reserved. */
#define HD_RESERVED_FRAME_TYPE 3
/* A record or the body is cut, or a value has no extent. */
#define HD_RECORD_CUT 4
/* The reply does not fit. */
#define HD_TOO_LONG 5
/* By rule nothing is to be sent. */
#define HD_NOTHING_TO_SEND 6
/* The bytes are no store. */
#define HD_NOT_A_STORE 7
/* The bytes are no table: their length is another, or they are in no form that these functions write. */
#define HD_NOT_A_TABLE 8
/* There is no such attribute, or its value has no number. */
#define HD_NO_NUMBER 9
/* The frame is not what the call reads: another frame type or command, or bytes that stand in no such reply. */
#define HD_NOT_SUCH_A_REPLY 10
/* The list of attributes to report is empty. */
#define HD_EMPTY_REPORT 11
/* An attribute to report is missing or not reportable. */
#define HD_NOT_REPORTABLE 12
/* The bytes are no saved form of a table, or the table is one that is not saved; */
#define HD_NOT_A_SAVED_FORM 13
/* or a mark is neither HD_SIGNED nor HD_UNSIGNED. */
#define HD_NOT_A_MARK 13

/* The mark of an attribute's configuration: how its numbers compare. Int types with their sign, */
#define HD_SIGNED 0
/* all others by their 64 bits, without one. */
#define HD_UNSIGNED 1

/* No attribute, for hd_report_turn, and so is every number above it: an attribute's number is ffff at most. */
#define HD_NO_ID 0x10000

/* The commands of requests, and of replies and reports: the last byte of a frame's header. */
#define HD_READ 0x00
#define HD_READ_REPLY 0x01
#define HD_WRITE 0x02
#define HD_WRITE_UNDIVIDED 0x03
/* It answers both writes. */
#define HD_WRITE_REPLY 0x04
#define HD_WRITE_NO_RESPONSE 0x05
#define HD_CONFIGURE 0x06
#define HD_CONFIGURE_REPLY 0x07
#define HD_READ_CONFIGURATION 0x08
#define HD_READ_CONFIGURATION_REPLY 0x09
#define HD_REPORT 0x0a
#define HD_DEFAULT_RESPONSE 0x0b
#define HD_DISCOVER 0x0c
#define HD_DISCOVER_REPLY 0x0d

/* The statuses inside replies. They are no numbers that a call returns. */
#define HD_STATUS_SUCCESS 0x00
#define HD_STATUS_UNSUP_COMMAND 0x81
#define HD_STATUS_UNSUPPORTED_ATTRIBUTE 0x86
#define HD_STATUS_INVALID_VALUE 0x87
#define HD_STATUS_READ_ONLY 0x88
#define HD_STATUS_INSUFFICIENT_SPACE 0x89
#define HD_STATUS_NOT_FOUND 0x8b
#define HD_STATUS_UNREPORTABLE_ATTRIBUTE 0x8c
#define HD_STATUS_INVALID_DATA_TYPE 0x8d
#define HD_STATUS_UNSUPPORTED_CLUSTER 0xc3

/* Makes the bytes an empty table, whatever they were. HD_NOT_A_TABLE where table_len is not HD_TABLE_BYTES. */
uint8_t hd_table_new(uint8_t *table, size_t table_len);

/*
 * Configures an attribute, in place of what was configured for it before, and forgets its last report. A report is due when
 * `minimum` seconds have passed since the last one and the value has moved, by `change` or more; or when `maximum` seconds have
 * passed too, whatever the value (0: never for the time alone; ffff: no reports at all). How far a value has moved is measured as `mark` says:
 * HD_SIGNED, as for the Int types, or HD_UNSIGNED, as for all others, by the 64 bits of the value; any other mark gets HD_NOT_A_MARK. A request
 * that configures sets the mark of its type. Writes 1 to *accepted, or 0 where 128 other attributes are configured: the table is then as it was,
 * and HD_OK is returned.
 */
uint8_t hd_configure(uint8_t *table, size_t table_len, uint16_t cluster, uint16_t attribute, uint16_t minimum, uint16_t maximum, uint64_t change, uint8_t mark, uint8_t *accepted);

/* Takes the attribute's configuration and last report out of the table. Where there is none, the table is as it was. */
uint8_t hd_clear(uint8_t *table, size_t table_len, uint16_t cluster, uint16_t attribute);

/* Writes 1 to *found, and what hd_configure was given for the attribute; or five zeros where nothing is configured. */
uint8_t hd_configuration(const uint8_t *table, size_t table_len, uint16_t cluster, uint16_t attribute, uint8_t *found, uint16_t *minimum, uint16_t *maximum, uint64_t *change, uint8_t *mark);

/*
 * Writes to *due whether the attribute should be reported at the time `now`, in seconds, if its value is `value`: 1 or 0.
 * From hd_configure to the first hd_mark it is 1, unless the maximum is ffff; an attribute that is not configured gets 0.
 */
uint8_t hd_ask(const uint8_t *table, size_t table_len, uint16_t cluster, uint16_t attribute, uint32_t now, int64_t value, uint8_t *due);

/*
 * Keeps the time and the value of a report that was sent; later asks are held to it. For an attribute that is not configured
 * the table is as it was.
 */
uint8_t hd_mark(uint8_t *table, size_t table_len, uint16_t cluster, uint16_t attribute, uint32_t now, int64_t value);

/*
 * Writes the saved form of the table to the start of `saved`, zeros behind it, and its length to *saved_used: what a box keeps in flash, so that
 * its reports outlive a power cut. It tells what is configured, and no last report; docs/TABLE.md has its layout. HD_SAVED_BYTES are enough. A
 * table is not saved, HD_NOT_A_SAVED_FORM, if an attribute stands in it twice, or with intervals that no request can set: a maximum of ffff, a
 * maximum of 0 with a minimum of ffff, or a maximum that is not 0 and below the minimum. The table stays as it is.
 */
uint8_t hd_save(const uint8_t *table, size_t table_len, uint8_t *saved, size_t saved_len, size_t *saved_used);

/*
 * Makes a table of a saved form, whatever the table's bytes were: its attributes are configured, and none is reported yet. `saved_len` is the
 * form's own length, as hd_save gave it; a form from before there were marks, one byte and 18 for each attribute, is read as HD_SIGNED. Bytes that
 * are no saved form get HD_NOT_A_SAVED_FORM and make an empty table. HD_NOT_A_TABLE where table_len is not HD_TABLE_BYTES; then the bytes are as
 * they were.
 */
uint8_t hd_restore(uint8_t *table, size_t table_len, const uint8_t *saved, size_t saved_len);

/*
 * Writes the number of an attribute's value to *value: Int types with their sign, every other type without one, but that a value of
 * eight bytes keeps its bit pattern.
 */
uint8_t hd_number(const uint8_t *store, size_t store_len, uint16_t attribute, int64_t *value);

/*
 * Serves one request, the bytes of a ZCL frame that came for `cluster`; `unicast` is 0 where it was not sent to this device alone. Writes
 * the reply to the start of `reply`, zeros behind it, and its length to *reply_used. A Default Response that came gets
 * HD_NOTHING_TO_SEND and changes nothing, whatever is in it: so devices that hand each other their replies stop after two at most.
 */
uint8_t hd_handle_request(uint8_t *store, size_t store_len, uint8_t *table, size_t table_len, uint16_t cluster, uint8_t unicast, const uint8_t *request, size_t request_len, uint8_t *reply, size_t reply_len, size_t *reply_used);

/*
 * Answers a request for a cluster that is not among the `served_len` served ones, with UNSUPPORTED_CLUSTER. Ask it last, after every
 * store of the endpoint: a served cluster gets HD_NOTHING_TO_SEND, and so does a Default Response.
 */
uint8_t hd_unsupported_cluster(const uint16_t *served, size_t served_len, uint16_t cluster, uint8_t unicast, const uint8_t *request, size_t request_len, uint8_t *reply, size_t reply_len, size_t *reply_used);

/*
 * Writes a Report Attributes frame of these attributes, in their order, to the start of `frame`, zeros behind it, and its length to
 * *frame_used.
 */
uint8_t hd_report(const uint8_t *store, size_t store_len, uint8_t sequence, const uint16_t *ids, size_t ids_len, uint8_t *frame, size_t frame_len, size_t *frame_used);

/*
 * A report turn: one Report Attributes frame of all that is due. Writes it to the start of `frame`, zeros behind it, and its length to *frame_used, and
 * keeps the time `now`, in seconds, and the value of each attribute in it, as hd_mark does. What is due is what hd_ask would say of the attribute and
 * its value, where a value without a number counts as 0. The store's attributes come in ascending order, each once, from the first above *last on and
 * going round, up to the first that does not fit. One that is configured and gone from the store, or not reportable, is passed over.
 *
 * *last goes in and comes back: HD_NO_ID at first, then what the turn before left there, the last attribute that it wrote. So none waits for ever where
 * not all fit: as long as each of them fits alone, and none is configured or cleared between, an attribute that is due in as many turns in a row as the
 * cluster has attributes configured is in one of their frames. HD_NOTHING_TO_SEND where nothing is due, HD_TOO_LONG where the first that is due does
 * not fit, or no header. A turn that is refused marks nothing.
 */
uint8_t hd_report_turn(const uint8_t *store, size_t store_len, uint8_t *table, size_t table_len, uint8_t sequence, uint32_t now, uint32_t *last, uint8_t *frame, size_t frame_len, size_t *frame_used);

/*
 * The readers: what a device sent back, the bytes of a ZCL frame. For a reply with records there is a check, which counts them, and a
 * function for record k, from 0. Both look at the whole frame in every call, so that neither supposes that the other was called before:
 *   HD_OK                the whole frame can be read. Where it has no record k, *found is 0 and so is every other result;
 *   HD_HEADER_SHORT      it is too short for a header;
 *   HD_RECORD_CUT        a record is cut, a value has no extent, or a body that cannot be empty is; also where that is behind record k;
 *   HD_NOT_SUCH_A_REPLY  it is no global command, its command is another, or bytes stand in it that no such reply has.
 * Of several faults the first in the frame counts. After a refusal every result is 0. A manufacturer code in the header is passed over.
 *
 * A status is its byte as it came. A value is told by its type, by `value`, the offset of its first byte in the frame, and by its
 * length; a string's length field is part of it. *numbered is 1 where its type has a number, and *number is that number, as hd_number gives it: Int types with their sign, every
 * other type without one and so never negative, but that a value of eight bytes keeps its bit pattern. Types of 16 bytes and of no fixed
 * length have none: *numbered and *number are then 0.
 */

/* Writes to *records how many records the reply to Read Attributes has. */
uint8_t hd_read_check(const uint8_t *frame, size_t frame_len, size_t *records);

/*
 * Record k of the reply to Read Attributes: 1 to *found, its attribute to *id, and its status, 0 for success. A success has a value; a
 * failure leaves 0 in all that tells of one.
 */
uint8_t hd_read_record(const uint8_t *frame, size_t frame_len, size_t k, uint8_t *found, uint16_t *id, uint8_t *status, uint8_t *type, size_t *value, size_t *value_len, uint8_t *numbered, int64_t *number);

/*
 * Writes to *failures how many failures the reply to Write Attributes, or to Write Attributes Undivided, has. 0 is success: the body is
 * one byte 00. A status 00 in a list of failures gets HD_NOT_SUCH_A_REPLY, an empty body HD_RECORD_CUT.
 */
uint8_t hd_write_check(const uint8_t *frame, size_t frame_len, size_t *failures);

/* Failure k of the reply to Write Attributes: 1 to *found, its status, and the attribute that was not written to *id. */
uint8_t hd_write_record(const uint8_t *frame, size_t frame_len, size_t k, uint8_t *found, uint8_t *status, uint16_t *id);

/* Writes to *failures how many failures the reply to Configure Reporting has. 0 is success, and it is refused as a write reply is. */
uint8_t hd_configure_check(const uint8_t *frame, size_t frame_len, size_t *failures);

/* Failure k of the reply to Configure Reporting: 1 to *found, its status, the direction's byte, and the attribute to *id. */
uint8_t hd_configure_record(const uint8_t *frame, size_t frame_len, size_t k, uint8_t *found, uint8_t *status, uint8_t *direction, uint16_t *id);

/* Writes to *records how many records the reply to Read Reporting Configuration has. */
uint8_t hd_configuration_check(const uint8_t *frame, size_t frame_len, size_t *records);

/*
 * Record k of the reply to Read Reporting Configuration: 1 to *found, its status, 0 for success, the direction's byte, and the attribute
 * to *id. A success has the attribute's type and three numbers; a failure leaves 0 in these four. The change has no sign, whatever the
 * type: its bytes as they came. It is 0 where the type has none.
 */
uint8_t hd_configuration_record(const uint8_t *frame, size_t frame_len, size_t k, uint8_t *found, uint8_t *status, uint8_t *direction, uint16_t *id, uint8_t *type, uint16_t *minimum, uint16_t *maximum, uint64_t *change);

/*
 * Writes to *complete the reply's byte, 1 where no attribute was left out and 0 where there are more, and to *records how many attributes
 * the reply to Discover Attributes lists. Any other such byte gets HD_NOT_SUCH_A_REPLY, an empty body HD_RECORD_CUT.
 */
uint8_t hd_discover_check(const uint8_t *frame, size_t frame_len, uint8_t *complete, size_t *records);

/* Attribute k of the reply to Discover Attributes: 1 to *found, the attribute to *id, and its type. */
uint8_t hd_discover_record(const uint8_t *frame, size_t frame_len, size_t k, uint8_t *found, uint16_t *id, uint8_t *type);

/*
 * A Default Response: the command that it answers, and the status. It has one record, so there is one function. HD_RECORD_CUT where the
 * two bytes are not there; bytes behind them are passed over.
 */
uint8_t hd_default_response(const uint8_t *frame, size_t frame_len, uint8_t *command, uint8_t *status);

/* Writes to *records how many records a Report Attributes frame has. */
uint8_t hd_report_check(const uint8_t *frame, size_t frame_len, size_t *records);

/* Record k of a Report Attributes frame: 1 to *found, its attribute to *id, and its value. */
uint8_t hd_report_record(const uint8_t *frame, size_t frame_len, size_t k, uint8_t *found, uint16_t *id, uint8_t *type, size_t *value, size_t *value_len, uint8_t *numbered, int64_t *number);

#ifdef __cplusplus
}
#endif

#endif

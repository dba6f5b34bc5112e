/* Protected Excel 97-2003 workbook streams: looking at them, their directory of sheets, what opening them takes, opening and
 * sealing.
 *
 * libsheet.a uses no heap, no operating system and no global state. It reads and writes only the memory that the caller
 * passes. Every function is proved to end, to do nothing undefined and to return what the definitions in the crates' specs/
 * say (docs/TRUST.md lists them), for all arguments that follow these rules:
 *
 *   - A pointer with a length points to that many bytes. With a length of 0 any pointer is allowed, including NULL.
 *   - facts points to eight numbers; salt and verifier point to 16 bytes each. None of these three is ever NULL.
 *   - What is written (scratch, output, facts) does not overlap anything else that is passed to the same call.
 *   - No other thread writes to the memory of a call while it runs. Calls on different memory may run at the same time.
 *
 * The stream is the Workbook stream of an .xls file, taken out of its compound file. One to three bytes after its last
 * record, all zero, are padding, as one spreadsheet program writes it: they are not a record, but count for the length of the
 * stream. Four zero bytes are a record of id 0 without a body.
 *
 * The object has no CET properties: a program that links it runs without IBT and shadow stack, and IBT must not be forced
 * (docs/TRUST.md, "The archive").
 *
 * sheet_words.h has the refusals in words, for hosts that want to show them. */
#ifndef SHEET_H
#define SHEET_H

#include <stdbool.h>
#include <stddef.h>
#include <stdint.h>

#ifdef __cplusplus
extern "C" {
#endif

/* The version, as text and as major * 10000 + minor * 100 + patch. CHANGELOG.md has what each version changed. */
#define SHEET_VERSION "0.3.0"
#define SHEET_VERSION_NUMBER 300

/* The bytes of scratch that opening and sealing need, and the most bytes of a password and of a stream (1 GiB). */
#define SHEET_SCRATCH_LEN 64
#define SHEET_PASSWORD_MAX_LEN 1024
#define SHEET_STREAM_MAX_LEN 1073741824

/* The compiler warns where the result is ignored: an output that was not written would be taken for a plain stream. */
#if defined(__GNUC__)
#define SHEET_MUST_CHECK __attribute__((warn_unused_result))
#else
#define SHEET_MUST_CHECK
#endif

/* The refusals, by number. In square brackets: the details, which are then in facts[SHEET_DETAIL_1] and
 * facts[SHEET_DETAIL_2]; a detail that is not named is 0. Each function that refuses says what it checks, and in which order.
 * Later versions add numbers and never change the meaning of one. */
enum sheet_refusal {
    SHEET_DONE = 0,
    /* the password is longer than 1,024 bytes */
    SHEET_REFUSED_PASSWORD_TOO_LONG = 1,
    /* the password is not well-formed UTF-8 */
    SHEET_REFUSED_PASSWORD_MALFORMED = 2,
    /* the scratch is shorter than 64 bytes */
    SHEET_REFUSED_SCRATCH_SHORT = 3,
    /* the stream is longer than 1,073,741,824 bytes */
    SHEET_REFUSED_STREAM_TOO_LARGE = 4,
    /* the output is shorter than the stream */
    SHEET_REFUSED_OUTPUT_SHORT = 5,
    /* a record can't be read: its header or its body is cut off, and what is left is not padding [the offset of its
     * header] */
    SHEET_REFUSED_BIFF_RECORD_UNREADABLE = 6,
    /* the stream does not start with a BOF record */
    SHEET_REFUSED_WORKBOOK_BOF_MISSING = 7,
    /* there is no FILEPASS record, so the workbook is not locked */
    SHEET_REFUSED_NOT_ENCRYPTED = 8,
    /* a record that the format does not allow there comes before FILEPASS [its id; 0x0086 is WriteProtect: the book was
     * also saved as "read-only recommended" or with a password to modify, and some programs do open such books] */
    SHEET_REFUSED_FILEPASS_OUT_OF_ORDER = 9,
    /* the FILEPASS record is cut off [bytes there, bytes needed] */
    SHEET_REFUSED_FILEPASS_TRUNCATED = 10,
    /* the FILEPASS record names a lock that is not known [its type] */
    SHEET_REFUSED_FILEPASS_ENCRYPTION_TYPE = 11,
    /* the lock's version is cut off [bytes there, 4] */
    SHEET_REFUSED_ENCRYPTION_VERSION_INFO_TRUNCATED = 12,
    /* the lock's version is not one that can be opened or sealed [major, minor] */
    SHEET_REFUSED_UNSUPPORTED_ENCRYPTION_VERSION = 13,
    /* the Office 97 RC4 lock is cut off [bytes there, 52] */
    SHEET_REFUSED_RC4_OFFICE97_HEADER_TRUNCATED = 14,
    /* the CryptoAPI lock is cut off [bytes there, 12] */
    SHEET_REFUSED_ENCRYPTION_INFO_TRUNCATED = 15,
    /* the CryptoAPI lock's header does not have 32 to 1,024 bytes [the size] */
    SHEET_REFUSED_ENCRYPTION_HEADER_SIZE_OUT_OF_RANGE = 16,
    /* the CryptoAPI lock's header is cut off [the size, bytes of the lock] */
    SHEET_REFUSED_ENCRYPTION_HEADER_SIZE_OUT_OF_BOUNDS = 17,
    /* the CryptoAPI lock uses an external provider (flag 0x10) [the flags] */
    SHEET_REFUSED_FLAG_EXTERNAL = 18,
    /* the CryptoAPI lock uses AES (flag 0x20), which no .xls workbook does [the flags] */
    SHEET_REFUSED_FLAG_AES = 19,
    /* the CryptoAPI lock does not use CryptoAPI (flag 0x04) [the flags] */
    SHEET_REFUSED_FLAG_CRYPTO_API_CLEAR = 20,
    /* the CryptoAPI lock's cipher is not RC4 [AlgID] */
    SHEET_REFUSED_UNSUPPORTED_ALG_ID = 21,
    /* the CryptoAPI lock's hash is not SHA-1 [AlgIDHash] */
    SHEET_REFUSED_UNSUPPORTED_ALG_ID_HASH = 22,
    /* the CryptoAPI lock's key size is not 40 to 128 bits in steps of 8, nor 0 in a book that is opened [the size in
     * bits] */
    SHEET_REFUSED_ENCRYPTION_HEADER_KEY_SIZE = 23,
    /* the CryptoAPI lock's verifier is cut off [bytes there, 60] */
    SHEET_REFUSED_ENCRYPTION_VERIFIER_TRUNCATED = 24,
    /* the CryptoAPI lock's salt does not have 16 bytes [the size] */
    SHEET_REFUSED_VERIFIER_SALT_SIZE = 25,
    /* the CryptoAPI lock's verifier hash does not have 20 bytes [the size] */
    SHEET_REFUSED_VERIFIER_HASH_SIZE = 26,
    /* the password is not correct */
    SHEET_REFUSED_WRONG_PASSWORD = 27,
    /* a sheet's entry does not name a sheet: the body of its BoundSheet8 record is shorter than 4 bytes, or the start
     * in it is not the header of a BOF record [the offset of the BoundSheet8 record's header] */
    SHEET_REFUSED_BOUND_SHEET_START = 28,
    /* BOF and EOF records do not pair up [the offset of the header of an EOF record with no BOF open; or, if a BOF is
     * left open at the end, the length of the stream, padding included] */
    SHEET_REFUSED_BOF_EOF_UNPAIRED = 29,
    /* there is no zero record to put the lock in (id 0000, a body of zeros, and only records before it that are never
     * enciphered), or a FILEPASS record comes before it */
    SHEET_REFUSED_ZERO_RECORD_MISSING = 30,
    /* the length of the zero record's body does not fit the lock: it is 6 bytes for XOR, 54 for Office 97 RC4, 106 to
     * 1,098 for CryptoAPI [the length] */
    SHEET_REFUSED_ZERO_RECORD_LENGTH = 31,
    /* the password is not one that XOR takes: 1 to 15 characters, none above U+00FF */
    SHEET_REFUSED_XOR_PASSWORD_UNFIT = 32
};

/* The facts: every function but sheet_same_lock writes all eight of them, whatever it returns. These are the names of their
 * places; the paragraph of each function says what they hold. Facts that are not named are 0. */

/* On a refusal, of every function that refuses. */
enum sheet_detail {
    SHEET_DETAIL_1 = 0,
    SHEET_DETAIL_2 = 1
};

/* What sheet_look returns, and its facts on SHEET_LOOK_YES. */
enum sheet_look_result {
    SHEET_LOOK_UNKNOWN = 0,
    SHEET_LOOK_NO = 1,
    SHEET_LOOK_YES = 2
};
enum sheet_look_fact {
    SHEET_LOOK_XOR = 0,
    SHEET_LOOK_HAS_VERSION = 1,
    SHEET_LOOK_MAJOR = 2,
    SHEET_LOOK_MINOR = 3,
    SHEET_LOOK_KEY_BITS = 4
};

/* What sheet_record returns, and its facts: SHEET_RECORD_AT on SHEET_RECORD_UNREADABLE, the others on SHEET_RECORD_FOUND. */
enum sheet_record_result {
    SHEET_RECORD_END = 0,
    SHEET_RECORD_FOUND = 1,
    SHEET_RECORD_UNREADABLE = 2
};
enum sheet_record_fact {
    SHEET_RECORD_AT = 0,
    SHEET_RECORD_ID = 0,
    SHEET_RECORD_BODY_LEN = 1,
    SHEET_RECORD_CLEAR_LEN = 2
};

/* Of sheet_directory. */
enum sheet_directory_fact {
    SHEET_DIRECTORY_SHEETS = 0,
    SHEET_DIRECTORY_HAS_START = 1,
    SHEET_DIRECTORY_START = 2
};

/* Of sheet_forecast. */
enum sheet_forecast_fact {
    SHEET_FORECAST_OUTPUT_BYTES = 0,
    SHEET_FORECAST_RECORDS = 1,
    SHEET_FORECAST_ENCIPHERED_BODY_BYTES = 2,
    SHEET_FORECAST_BLOCK_KEYS = 3
};

/* Of sheet_open and of the functions that seal; and the locks, as facts[SHEET_REPORT_LOCK] has them. */
enum sheet_report_fact {
    SHEET_REPORT_RECORDS = 0,
    SHEET_REPORT_LOCK = 1,
    SHEET_REPORT_KEY_BITS = 2,
    SHEET_REPORT_SUMMARY_SEALED = 3,
    SHEET_REPORT_OUTPUT_BYTES = 4,
    SHEET_REPORT_ENCIPHERED_BODY_BYTES = 5,
    SHEET_REPORT_BLOCK_KEYS = 6
};
enum sheet_lock {
    SHEET_LOCK_XOR = 0,
    SHEET_LOCK_OFFICE97 = 1,
    SHEET_LOCK_CRYPTOAPI = 2
};

/* Whether a workbook is locked, by its first 1,048,576 bytes at most.
 *
 * Returns SHEET_LOOK_UNKNOWN if this is not a workbook stream or is cut off too early, SHEET_LOOK_NO, or SHEET_LOOK_YES.
 * A stream that has only records that are never enciphered, and no FILEPASS, is unknown too, with padding at its end or
 * without.
 *
 * SHEET_LOOK_NO DOES NOT MEAN THAT THE STREAM IS PLAIN. It is returned at the first record with an id other than 0x0809,
 * 0x002F, 0x00E1, 0x0138, 0x0194, 0x0195 and 0x0196 that comes before FILEPASS. A book that was saved with a password and also
 * as "read-only recommended" or with a password to modify has a WriteProtect record (0x0086) there: it is locked, its
 * figures are enciphered, and the result is SHEET_LOOK_NO. Before figures are read from a stream as plain ones, ask
 * sheet_forecast: SHEET_REFUSED_NOT_ENCRYPTED means that the stream is in order and has no FILEPASS record anywhere, and
 * SHEET_REFUSED_FILEPASS_OUT_OF_ORDER that it is such a book.
 *
 * All eight facts are written, whatever is returned. On SHEET_LOOK_YES: SHEET_LOOK_XOR is 1 if the lock is XOR;
 * SHEET_LOOK_HAS_VERSION is 1 if the lock's version is there, and then SHEET_LOOK_MAJOR and SHEET_LOOK_MINOR are its two
 * numbers; SHEET_LOOK_KEY_BITS is the key size in bits, 0 for none. All others are 0.
 *
 * A key size is read for versions 2.2, 3.2 and 4.2 and for no other. It is 40 where they say 0, which means 40 to sheet_open
 * too ([MS-OFFCRYPTO] 2.3.5.1); what they say from 1 to 4,096; and none above that, or if its four bytes are not all there.
 * For a stream that sheet_open opens as RC4 CryptoAPI it is proved to be the key size that sheet_open reports, if the offset
 * of the first FILEPASS record's header is at most 1,048,538, and to be none otherwise: the key size then ends after the
 * bytes that are read here. */
SHEET_MUST_CHECK uint32_t sheet_look(const uint8_t *stream, size_t stream_len, uint64_t facts[8]);

/* Whether two workbooks have the same lock, by the first 1,048,576 bytes of each at most: sheet_look says SHEET_LOOK_YES of
 * both, and the bodies of their FILEPASS records are equal, byte for byte. Of a body, all its bytes count that are there
 * within those first bytes, whatever length its header states; the stated lengths are not compared. Where the bodies are
 * equal, so are the facts that sheet_look gives. Locks whose salts differ within those bytes are different, and so are those
 * that state key sizes of 0 and of 40 there.
 *
 * A host can offer the last password again by it: the password that opened one workbook is the one to try on another with
 * the same lock. Two streams with the same lock are proved to take the same passwords: if sheet_forecast refuses neither, and
 * enough scratch and output is lent, sheet_open with any one password of UTF-8, of at most 1,024 bytes, opens both or refuses
 * both by SHEET_REFUSED_WRONG_PASSWORD. This holds if the FILEPASS body of at least one of the two ends within its first
 * 1,048,576 bytes. Where both go on after that, the bytes that follow are not compared, and the passwords may differ.
 *
 * A result of false says nothing about the passwords: except under XOR, workbooks that were locked with the same password
 * usually have different salts, and so different locks.
 *
 * The headers up to each FILEPASS record are read and, if both bodies have the same number of bytes, these bytes up to the
 * first that differs; nothing else is read. */
SHEET_MUST_CHECK bool sheet_same_lock(const uint8_t *a, size_t a_len, const uint8_t *b, size_t b_len);

/* The record whose header is at an offset of a stream. To list the records, start at 0 and go on at
 * at + 4 + facts[SHEET_RECORD_BODY_LEN].
 *
 * Returns SHEET_RECORD_END at the end of the stream or past it, and at any offset where only one to three zero bytes are left;
 * SHEET_RECORD_FOUND for a record, and then SHEET_RECORD_ID is its id, SHEET_RECORD_BODY_LEN the length of its body, and
 * SHEET_RECORD_CLEAR_LEN how many of the body's first bytes are never enciphered; SHEET_RECORD_UNREADABLE if a header or a
 * body is cut off, and then SHEET_RECORD_AT is the header's offset. All eight facts are written; the others are 0. */
SHEET_MUST_CHECK uint32_t sheet_record(const uint8_t *stream, size_t stream_len, size_t at, uint64_t facts[8]);

/* The directory of sheets: how many a workbook has, and where the one at a place starts.
 *
 * A sheet's entry is a BoundSheet8 record (id 0x0085), anywhere in the stream. Places count from 0, in the order of the
 * entries. A sheet's start is the offset in the stream of its BOF record (id 0x0809), little-endian in the first four bytes
 * of the entry's body. These bytes are not enciphered in a locked workbook either: a stream that sheet_open opens is proved
 * to have the same directory as its plain stream, so that a sheet can be picked before a password is typed.
 *
 * Returns 0 if the stream is in order. Then SHEET_DIRECTORY_SHEETS is the number of sheets, whatever the place;
 * SHEET_DIRECTORY_HAS_START is 1 if there is a sheet at the place, which is so for every place below that number and for no
 * other; and then SHEET_DIRECTORY_START is its start.
 *
 * Any other result is a refusal, and SHEET_DETAIL_1 is its detail. All eight facts are written, whatever is returned; the
 * others are 0. Whatever the place, these are checked, in this order:
 *
 *   - 4, 6 and 7.
 *   - 28, of the entries in stream order: the body has 4 bytes or more, and the start in it is the offset of a BOF record's
 *     header, reached from offset 0 record by record. Any BOF record will do, the stream's first and a chart's too.
 *   - 29: BOF and EOF records (id 0x000A) pair up like brackets over the whole stream, as charts are inside sheets. Only
 *     their ids count, whatever their bodies. The first EOF record with no BOF open is reported; if there is none, a BOF that
 *     is left open at the end.
 *
 * Every call reads the whole stream. To list all sheets, call once and take the starts from the entries themselves, which
 * sheet_record finds.
 *
 * The time is linear in the stream's length where the starts rise from one entry to the next: two walks over its records
 * where the entries come before the sheets, as in workbooks, and four at the most. Where a start is lower than the one
 * before it, the search goes back to the front of the stream, since no memory is asked for: the worst case is the number of
 * such steps back times the number of records, and grows with the square of the length. A stream that is made to be slow
 * takes up to a minute with a mebibyte, and would take more than a year with a gibibyte: a host should limit the length of
 * streams that it does not trust. */
SHEET_MUST_CHECK uint32_t sheet_directory(const uint8_t *stream, size_t stream_len, size_t place, uint64_t facts[8]);

/* What opening a stream will take, from the stream alone, without a password.
 *
 * Returns 0 if only the password is left to be checked. Then
 *
 *   - SHEET_FORECAST_OUTPUT_BYTES is the number of output bytes: the stream's length, padding included;
 *   - SHEET_FORECAST_RECORDS is the number of records;
 *   - SHEET_FORECAST_ENCIPHERED_BODY_BYTES is the lengths of all bodies less their clear parts, added up, both as
 *     sheet_record gives them;
 *   - SHEET_FORECAST_BLOCK_KEYS is the number of block keys that are derived: 0 under XOR; under RC4 one for the check of the
 *     password, and one for each started 1,024 bytes of the stream, padding included, so that the key of the first block
 *     counts twice.
 *
 * These are proved to be the four that sheet_open reports of a stream that it opens. The enciphered body bytes, four bytes
 * for each record and the padding are proved to add up to stream_len at the most.
 *
 * Any other result is a refusal, 4 or 6 to 26, and SHEET_DETAIL_1 and SHEET_DETAIL_2 are its details. It is the lowest number
 * that applies. All eight facts are written, whatever is returned; the others are 0.
 *
 * A stream is proved to be refused here exactly when sheet_open refuses it by a number other than 27, where sheet_open is
 * given any well-formed password of at most 1,024 bytes and enough scratch and output; and then number and details are the
 * same.
 *
 * One pass over the records reads every header; of the bodies, only that of the first FILEPASS record is read. The time is
 * linear in the number of records. */
SHEET_MUST_CHECK uint32_t sheet_forecast(const uint8_t *stream, size_t stream_len, uint64_t facts[8]);

/* Opens a locked workbook stream.
 *
 * The password is UTF-8, without a terminating zero. The output has room for the stream; the plain stream has the
 * same length. All eight facts are written, whatever is returned.
 *
 * Returns 0 if the stream was opened. Then output[0 .. stream_len) is the plain stream and the rest of the output is
 * unchanged. SHEET_REPORT_RECORDS is the number of records; SHEET_REPORT_LOCK one of enum sheet_lock: XOR, Office 97 RC4
 * (version 1.1) or RC4 CryptoAPI; SHEET_REPORT_KEY_BITS the key size in bits: 0 for XOR, 40 for Office 97 RC4;
 * SHEET_REPORT_SUMMARY_SEALED is 1 if the document summary, which is not in this stream, is enciphered too;
 * SHEET_REPORT_OUTPUT_BYTES, SHEET_REPORT_ENCIPHERED_BODY_BYTES and SHEET_REPORT_BLOCK_KEYS are, as the records are, what
 * sheet_forecast gives for the stream. facts[7] is 0. Padding comes out as it is, under every lock; it counts for output
 * bytes and block keys, and is not a record.
 *
 * Any other result is a refusal, 1 to 27: the output is unchanged, SHEET_DETAIL_1 and SHEET_DETAIL_2 are its details, and the
 * other facts are 0. It is the lowest number that applies.
 *
 * On 1 to 5 the scratch is unchanged; otherwise its first 64 bytes are zero afterwards, on success too, and the rest is
 * unchanged, however long the scratch is.
 *
 * What was made from the password (digests, keys, RC4 tables; under XOR its own bytes too) is also left in the call's stack
 * frames and in registers, about which no proof can say anything once the call has returned. A host that cares should
 *
 *   - call sheet_open from a function that is not inlined, and then, from the same caller, a second one that is not
 *     inlined and overwrites a local array of 16 KiB through a pointer to volatile. A call was measured to go less than
 *     5,500 bytes deep, and less than 8,000 where the dynamic linker binds memcpy or memset during it;
 *   - link with -z now, or clear the vector registers after the call (vzeroall, and zmm16 to zmm31 where there are
 *     any): parts of the tables, and under XOR of the array, are left there, and a function bound at its first call,
 *     or a signal handled on the same stack, saves them to the stack;
 *   - wipe its own copy of the password.
 *
 * host/examples/embed.c does this. */
SHEET_MUST_CHECK uint32_t sheet_open(const uint8_t *stream, size_t stream_len, const uint8_t *password, size_t password_len,
                                     uint8_t *scratch, size_t scratch_len, uint8_t *output, size_t output_len,
                                     uint64_t facts[8]);

/* Sealing: a plain workbook stream is put under a password, by one function for each lock.
 *
 * The lock goes into a zero record: its id is 0, its body has no byte but 0, and every record before it has one of the ids
 * 0x0809, 0x00E1, 0x0138, 0x0194, 0x0195 and 0x0196. So it is the first record with any other id, or there is none (30). A
 * stream that sheet_open wrote has one where its FILEPASS record was. The sealed stream has the length of the plain one: the
 * zero record becomes a FILEPASS record of the same length, every other body is enciphered except for what sheet_record
 * reports as clear, and headers and padding stay as they are. A FILEPASS record after the zero record does not matter,
 * and stays as it is too. sheet_open with the same password is proved to give the plain stream again, bit for bit.
 *
 * The password is UTF-8, without a terminating zero. All eight facts are written, whatever is returned.
 *
 * Returns 0 if the stream was sealed. Then output[0 .. plain_len) is the sealed stream and the rest of the output is
 * unchanged; the facts are those that sheet_open gives when it opens the sealed stream.
 *
 * Any other result is a refusal: the output is unchanged, SHEET_DETAIL_1 and SHEET_DETAIL_2 are its details, and the other
 * facts are 0. On 1 to 5 the scratch is unchanged; otherwise its first 64 bytes are zero afterwards, on success too, and the
 * rest is unchanged. Each function lists its checks, and the first that fails is reported. For 4 to 7 the stream is the plain
 * one.
 *
 * The salt and the verifier are 16 bytes each. Both must be fresh for each sealing, from a random source that nobody can
 * predict (getentropy, or /dev/urandom, which early in a boot may not be ready): never fixed, counted, or taken from another
 * sheet. The salt is in the sealed stream as it is. The verifier is given plain, and the function enciphers it and its
 * digest. If they are not fresh, the sheet opens as before, but:
 *
 *   - The same password and salt give the same keystream (with one lock and key size). At every offset where two sheets
 *     that are sealed so are both enciphered, their exclusive-or is that of their plain streams, from which most of both can
 *     be worked out, without any password.
 *   - With the same salt, what passwords make can be worked out beforehand, once for all sheets that have it.
 *   - Anyone who knows the verifier knows the first bytes of the keystream of block 0: 32 of them under Office 97 RC4, 36
 *     under CryptoAPI. No enciphered byte is there, so that this reveals only whether a guessed password is right, which the
 *     lock reveals too.
 *
 * XOR, Office 97 RC4, and CryptoAPI with 40 bits do not protect a sheet from anyone who tries: under XOR the sealed stream
 * itself gives away what it was enciphered with, and a key of 40 bits is found by trying them all, whatever the password is,
 * as are keys of up to 64 bits by anyone who has many machines. They are for programs that read nothing else. CryptoAPI with
 * 128 bits is the strongest of these locks, and no stronger than the password, as nothing slows down guessing at it. No lock
 * shows whether a sealed stream was changed afterwards.
 *
 * Not every program opens every choice. LibreOffice, msoffcrypto-tool and Apache POI, in the versions that were tried, all
 * open Office 97 RC4, and CryptoAPI of version 3.2 or 4.2 with 128 bits in a zero record of 108 bytes, with a password of 1
 * to 15 UTF-16 units; LibreOffice does not open version 2.2, fewer bits, or other passwords. Microsoft Excel was not tried.
 *
 * What is said at sheet_open about the stack, registers and the host's own copy of the password is true of these functions
 * too. */

/* Seals under XOR. There is no salt and no verifier: the same password and stream give the same sealed stream.
 *
 * Checked in this order: 1 to 7; 30; 31, the zero record's body has 6 bytes; 32, the password has 1 to 15 characters, none
 * above U+00FF. */
SHEET_MUST_CHECK uint32_t sheet_seal_xor(const uint8_t *plain, size_t plain_len, const uint8_t *password,
                                         size_t password_len, uint8_t *scratch, size_t scratch_len, uint8_t *output,
                                         size_t output_len, uint64_t facts[8]);

/* Seals under Office 97 RC4, version 1.1, whose keys have 40 bits.
 *
 * Checked in this order: 1 to 7; 30; 31, the zero record's body has 54 bytes. */
SHEET_MUST_CHECK uint32_t sheet_seal_office97(const uint8_t *plain, size_t plain_len, const uint8_t *password,
                                              size_t password_len, const uint8_t salt[16], const uint8_t verifier[16],
                                              uint8_t *scratch, size_t scratch_len, uint8_t *output, size_t output_len,
                                              uint64_t facts[8]);

/* Seals under RC4 CryptoAPI, version major.2, with a key size in bits. The lock's header fills the record's body, and names
 * no provider. It says that the document summary, which is not in this stream, is not enciphered: where sheet_open reported
 * otherwise for the book (SHEET_REPORT_SUMMARY_SEALED is 1), the summary still is, under the old password, and the host has
 * to remove it.
 *
 * Checked in this order: 1 to 7; 13, major is 2, 3 or 4 (its details are major and 2); 23, key_size is 40 to 128 in steps of
 * 8, and not 0; 30; 31, the zero record's body has 106 to 1,098 bytes. */
SHEET_MUST_CHECK uint32_t sheet_seal_cryptoapi(const uint8_t *plain, size_t plain_len, const uint8_t *password,
                                               size_t password_len, const uint8_t salt[16], const uint8_t verifier[16],
                                               uint16_t major, uint32_t key_size, uint8_t *scratch, size_t scratch_len,
                                               uint8_t *output, size_t output_len, uint64_t facts[8]);

#ifdef __cplusplus
}
#endif

#endif

/* The refusals of sheet.h in words, without their details.
 *
 * This is a header of its own, so that a host without room for the words leaves them out: libsheet.a has none. The words are
 * those of `sheet refusals`. */
#ifndef SHEET_WORDS_H
#define SHEET_WORDS_H

#include "sheet.h"

/* What is wrong, by the number of the refusal. For 0 it is "done". For a number that this version does not have it is a
 * sentence that says so: the result is never NULL. */
static inline const char *sheet_refusal_words(uint32_t number)
{
    switch (number) {
    case SHEET_DONE:
        return "done";
    case SHEET_REFUSED_PASSWORD_TOO_LONG:
        return "the password is longer than 1,024 bytes";
    case SHEET_REFUSED_PASSWORD_MALFORMED:
        return "the password is not well-formed UTF-8";
    case SHEET_REFUSED_SCRATCH_SHORT:
        return "the scratch is shorter than 64 bytes";
    case SHEET_REFUSED_STREAM_TOO_LARGE:
        return "the stream is longer than 1,073,741,824 bytes";
    case SHEET_REFUSED_OUTPUT_SHORT:
        return "the output is shorter than the stream";
    case SHEET_REFUSED_BIFF_RECORD_UNREADABLE:
        return "a record can't be read: its header or its body is cut off, and what is left is not padding";
    case SHEET_REFUSED_WORKBOOK_BOF_MISSING:
        return "the stream does not start with a BOF record";
    case SHEET_REFUSED_NOT_ENCRYPTED:
        return "there is no FILEPASS record, so the workbook is not locked";
    case SHEET_REFUSED_FILEPASS_OUT_OF_ORDER:
        return "a record that the format does not allow there comes before FILEPASS";
    case SHEET_REFUSED_FILEPASS_TRUNCATED:
        return "the FILEPASS record is cut off";
    case SHEET_REFUSED_FILEPASS_ENCRYPTION_TYPE:
        return "the FILEPASS record names a lock that is not known";
    case SHEET_REFUSED_ENCRYPTION_VERSION_INFO_TRUNCATED:
        return "the lock's version is cut off";
    case SHEET_REFUSED_UNSUPPORTED_ENCRYPTION_VERSION:
        return "the lock's version is not one that can be opened or sealed";
    case SHEET_REFUSED_RC4_OFFICE97_HEADER_TRUNCATED:
        return "the Office 97 RC4 lock is cut off";
    case SHEET_REFUSED_ENCRYPTION_INFO_TRUNCATED:
        return "the CryptoAPI lock is cut off";
    case SHEET_REFUSED_ENCRYPTION_HEADER_SIZE_OUT_OF_RANGE:
        return "the CryptoAPI lock's header does not have 32 to 1,024 bytes";
    case SHEET_REFUSED_ENCRYPTION_HEADER_SIZE_OUT_OF_BOUNDS:
        return "the CryptoAPI lock's header is cut off";
    case SHEET_REFUSED_FLAG_EXTERNAL:
        return "the CryptoAPI lock uses an external provider (flag 10)";
    case SHEET_REFUSED_FLAG_AES:
        return "the CryptoAPI lock uses AES (flag 20), which no .xls workbook does";
    case SHEET_REFUSED_FLAG_CRYPTO_API_CLEAR:
        return "the CryptoAPI lock does not use CryptoAPI (flag 04)";
    case SHEET_REFUSED_UNSUPPORTED_ALG_ID:
        return "the CryptoAPI lock's cipher is not RC4";
    case SHEET_REFUSED_UNSUPPORTED_ALG_ID_HASH:
        return "the CryptoAPI lock's hash is not SHA-1";
    case SHEET_REFUSED_ENCRYPTION_HEADER_KEY_SIZE:
        return "the CryptoAPI lock's key size is not 40 to 128 bits in steps of 8, nor 0 in a book that is "
               "opened";
    case SHEET_REFUSED_ENCRYPTION_VERIFIER_TRUNCATED:
        return "the CryptoAPI lock's verifier is cut off";
    case SHEET_REFUSED_VERIFIER_SALT_SIZE:
        return "the CryptoAPI lock's salt does not have 16 bytes";
    case SHEET_REFUSED_VERIFIER_HASH_SIZE:
        return "the CryptoAPI lock's verifier hash does not have 20 bytes";
    case SHEET_REFUSED_WRONG_PASSWORD:
        return "the password is not correct";
    case SHEET_REFUSED_BOUND_SHEET_START:
        return "a sheet's entry does not name a sheet: the body of its BoundSheet8 record is shorter than 4 "
               "bytes, or the start in it is not the header of a BOF record";
    case SHEET_REFUSED_BOF_EOF_UNPAIRED:
        return "BOF and EOF records do not pair up";
    case SHEET_REFUSED_ZERO_RECORD_MISSING:
        return "there is no zero record to put the lock in (id 0000, a body of zeros, and only records before it "
               "that are never enciphered), or a FILEPASS record comes before it";
    case SHEET_REFUSED_ZERO_RECORD_LENGTH:
        return "the length of the zero record's body does not fit the lock: it is 6 bytes for XOR, 54 for Office "
               "97 RC4, 106 to 1,098 for CryptoAPI";
    case SHEET_REFUSED_XOR_PASSWORD_UNFIT:
        return "the password is not one that XOR takes: 1 to 15 characters, none above U+00FF";
    default:
        return "a refusal that this version of sheet_words.h has no words for";
    }
}

#endif

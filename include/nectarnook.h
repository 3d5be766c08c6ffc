/*
 * nectarnook.h - capability-based command security for SCSI logical units
 *
 * The store keeps three buffers and lends them to each call; the library keeps nothing between calls, allocates nothing and calls
 * nothing but memcpy and memset. Link with libnectarnook.a, which `make lib` puts into dist/ with this file.
 *
 *   units   4,096 bytes, the records of units 0 to 7
 *   slots   8,192 bytes, the records of slots 0 to 15, in which commands wait for their data
 *   reply     512 bytes, into which pages are replied
 *
 * None of the calls asks anything of the bytes that it is lent: every input has its answer, wrong lengths and damaged records too.
 * What every call asks is what C can't say:
 *
 *   - a pointer is to as many readable bytes as the length after it says, or as the array that it is declared as; what is not
 *     declared const is writable too. A pointer is never null, also where the length is 0;
 *   - no buffer that a call may write overlaps any other buffer of the same call;
 *   - until the call returns nothing else writes any of its buffers, or reads one that it may write.
 *
 * A fresh set of buffers:
 *
 *   static uint8_t units[NN_UNITS_LEN] = NN_FRESH_UNITS;
 *   static uint8_t slots[NN_SLOTS_LEN] = NN_FRESH_SLOTS;
 *   static uint8_t reply[NN_REPLY_LEN];
 *
 * Records keep their check with them, so the tables may be saved and brought back as bytes: a unit table as a whole, since a unit that
 * shares keys is sound only beside its keeper, and with it the keys and tags of that time.
 *
 * The archive is one ELF object for x86-64, compiled for the System V calling convention and for any such processor (of its vector
 * registers it uses xmm, with no instruction past SSE2). It is position-independent: it links into programs at fixed addresses,
 * position-independent ones and shared libraries alike. From the platform it needs memcpy and memset and nothing else: no operating
 * system, no allocator, no start-up code. It writes the 128 bytes below the stack pointer that this convention leaves to a function (the
 * red zone), so an interrupt must not run on the same stack right below it.
 *
 * Size and stack, of the library that this file came with: 22,002 bytes of code and constants, none of data (`size` on the object). The
 * most stack that a call takes, its return address with it: nn_open 1,780 bytes, nn_close 1,860, nn_build 900, nn_abort 756,
 * nn_reset 40, nn_sha1 660, nn_hmac_sha1 1,252. These are the frames of the compiled code, added up along the deepest path of calls by
 * `tools/stack`: no function calls itself, and none is called through a pointer. What memcpy and memset take beyond their return address
 * comes on top, and so do arguments that the caller passes on the stack. Calls on a painted stack, good and bad ones, 316,000 of nn_open
 * among them, wrote no further down than the word of eight bytes in which that ends.
 */
#ifndef NECTARNOOK_H
#define NECTARNOOK_H

#include <stddef.h>
#include <stdint.h>

#ifdef __cplusplus
extern "C" {
#endif

/* The version: docs/CHANGES.md says what each changed for a caller. */
#define NN_VERSION 3

/* ---- lengths, in bytes */

#define NN_RECORD_LEN 512
#define NN_UNITS_LEN 4096
#define NN_SLOTS_LEN 8192
#define NN_REPLY_LEN 512
#define NN_IDENTIFIER_LEN 16
#define NN_KEY_LEN 20
#define NN_TOKEN_LEAST 16
#define NN_TOKEN_MOST 64

/* ---- methods of a unit: without security; commands bring a capability, signed under a key */

#define NN_METHOD_NOSEC 0
#define NN_METHOD_CAPKEY 1

/* nn_build's keeper: keys of its own, or those of a unit. The number is one more than the unit's. */
#define NN_OWN_KEYS 0
#define NN_KEEPER(unit) ((uint32_t)(unit) + 1)

/* ---- fresh tables */

#define NN_ZEROS_4 0, 0, 0, 0
#define NN_ZEROS_12 NN_ZEROS_4, NN_ZEROS_4, NN_ZEROS_4
#define NN_ZEROS_60 NN_ZEROS_12, NN_ZEROS_12, NN_ZEROS_12, NN_ZEROS_12, NN_ZEROS_12
#define NN_ZEROS_240 NN_ZEROS_60, NN_ZEROS_60, NN_ZEROS_60, NN_ZEROS_60

/* The 512 bytes of an unused unit, and of a free slot: 492 zeros and their SHA-1. */
#define NN_BLANK_RECORD \
    NN_ZEROS_240, NN_ZEROS_240, NN_ZEROS_12, \
    0xaa, 0xc4, 0x93, 0xc3, 0xed, 0x21, 0x3d, 0x17, 0xb8, 0x3b, \
    0x2e, 0x8a, 0x28, 0x3b, 0xa5, 0xf4, 0xdd, 0xf1, 0x62, 0xd4

#define NN_BLANK_RECORDS_4 NN_BLANK_RECORD, NN_BLANK_RECORD, NN_BLANK_RECORD, NN_BLANK_RECORD

/* Initializers: eight unused units, sixteen free slots. */
#define NN_FRESH_UNITS { NN_BLANK_RECORDS_4, NN_BLANK_RECORDS_4 }
#define NN_FRESH_SLOTS { NN_BLANK_RECORDS_4, NN_BLANK_RECORDS_4, NN_BLANK_RECORDS_4, NN_BLANK_RECORDS_4 }

/* ---- results
 *
 * Each call returns its answer in 64 bits: from the lowest byte on the answer, status, sense key, additional code, qualifier and
 * reason, then ten bits of count or slot. What an answer does not have is zero, and so are the bits above. No two answers of the
 * calls have the same number. */

#define NN_ANSWER(result) ((unsigned)((result) & 0xff))

/* The status byte for the initiator, where there is one: of nn_open and nn_close alone. Beside A1 and H1 to H5 it is 00h because there is
 * none: that is no GOOD. A store that forwards it unread answers GOOD to a command that nothing has run, so ask NN_HAS_STATUS first. */
#define NN_STATUS(result) ((unsigned)((result) >> 8 & 0xff))
#define NN_HAS_STATUS(result) (NN_ANSWER(result) <= NN_A4 && NN_ANSWER(result) != NN_A1)

#define NN_STATUS_GOOD 0x00
#define NN_STATUS_CHECK_CONDITION 0x02
#define NN_STATUS_TASK_SET_FULL 0x28

#define NN_SENSE_KEY(result) ((unsigned)((result) >> 16 & 0xff))
#define NN_CODE(result) ((unsigned)((result) >> 24 & 0xff))
#define NN_QUALIFIER(result) ((unsigned)((result) >> 32 & 0xff))
#define NN_REASON(result) ((unsigned)((result) >> 40 & 0xff))
#define NN_COUNT(result) ((unsigned)((result) >> 48 & 0x3ff))
#define NN_SLOT(result) NN_COUNT(result)

/* What NN_ANSWER gives.
 *
 *   A0  GOOD, handled here. NN_STATUS is 00h, NN_COUNT how many bytes of the reply were written
 *   A1  parked: the command waits for its data in slot NN_SLOT; there is no status yet
 *   A2  GOOD, to be run by the medium or the crypto block. NN_STATUS is 00h
 *   A3  CHECK CONDITION. NN_STATUS is 02h, NN_SENSE_KEY, NN_CODE and NN_QUALIFIER are the sense, NN_REASON says why (below)
 *   A4  TASK SET FULL: no slot is free. NN_STATUS is 28h
 *   H1  a lent buffer has the wrong length
 *   H2  the token is not 16 to 64 bytes long
 *   H3  the slot is above 15, free or unsound
 *   H4  the slot holds a command that takes no data. No call gives it: such a slot is unsound, and so H3
 *   H5  build: the unit is above 7, the method above 1, or the keeper one that may not be (nn_build)
 *
 * A0 to A4 of nn_open and nn_close are about the command (A1: no status yet). A0 of nn_build, nn_abort and nn_reset is for the store alone,
 * and never a status for a command: one that was aborted has none from here. H1 to H5 tell the store that it called wrongly, H3 also that a
 * slot's record is damaged, and they change no byte. */
#define NN_A0 0x00
#define NN_A1 0x01
#define NN_A2 0x02
#define NN_A3 0x03
#define NN_A4 0x04
#define NN_H1 0x11
#define NN_H2 0x12
#define NN_H3 0x13
#define NN_H4 0x14
#define NN_H5 0x15

/* What NN_REASON gives with A3: the sense beside it (key, code/qualifier) and when it comes. The first that applies is given, in this
 * order. 1Bh is written 1b. There is no reason 5. 18 and 19 come only from nn_close.
 *
 * CAPKEY rules on CAPKEY units, and on every unit for the commands that want a master key: SECURITY PROTOCOL OUT (B5h), and IN page 0012h,
 * which is that of SECURITY PROTOCOL IN (A2h). */
#define NN_REASON_NO_UNIT 1         /* 5h, 25h/00h: the unit is above 7, or its record sound and unused */
#define NN_REASON_UNSOUND 0x1b      /* 4h, 44h/00h: the unit's record is unsound: damaged; or it shares keys, and its keeper's record is
                                     *              unsound, unused or itself a sharer's */
#define NN_REASON_UNKNOWN_COMMAND 2 /* 5h, 20h/00h: the command is empty or its code unknown */
#define NN_REASON_COMMAND_LENGTH 3  /* 5h, 24h/00h: its length is neither the CDB's nor 78 bytes more */
#define NN_REASON_PROTOCOL 4        /* 5h, 24h/00h: A2h, B5h: protocol byte 1 not 07h, page in bytes 2-3 unlisted, or bit 7 of byte 4 set */
#define NN_REASON_NO_CAPABILITY 6   /* 5h, 24h/00h: no capability, and the unit is CAPKEY or the command wants a master key */
#define NN_REASON_FORMAT 7          /* 5h, 24h/00h: capability: format not 1h */
#define NN_REASON_METHOD 8          /* 5h, 24h/00h: capability: method not CAPKEY where CAPKEY rules, else above 1 */
#define NN_REASON_ALGORITHM 9       /* 5h, 24h/00h: capability: algorithm not 1, where CAPKEY rules */
#define NN_REASON_EXPIRED 10        /* 5h, 24h/00h: capability: expiration not zero and below the clock */
#define NN_REASON_PERMISSIONS 11    /* 5h, 24h/00h: capability: a needed permission bit of byte 32 is missing */
#define NN_REASON_POLICY_TAG 12     /* 5h, 24h/00h: capability: policy tag not zero and not the unit's */
#define NN_REASON_DESCRIPTOR 13     /* 5h, 24h/00h: capability: type not 1h, length not 16, or identifier not the unit's */
#define NN_REASON_NO_KEY 14         /* 5h, 24h/00h: no such key: the version has no valid key, a master command names another version
                                     *              than 0, or Change comes with no seed exchange pending */
#define NN_REASON_CHECK_VALUE 15    /* 5h, 24h/00h: the integrity check value differs */
#define NN_REASON_TOTAL 16          /* 5h, 1Ah/00h: B5h: bytes 6-9 are not the page's total */
#define NN_REASON_NO_EXCHANGE 17    /* 5h, 24h/00h: IN page 0012h with no seed exchange pending in the unit's key set */
#define NN_REASON_DATA_LENGTH 18    /* 5h, 1Ah/00h: B5h: the data are not as long as bytes 6-9 say */
#define NN_REASON_LIST 19           /* 5h, 26h/00h: B5h: page code, page length, a field or a named zero of the data is wrong */

/*
 * nn_build - build a unit's record
 *
 * Gets:    the unit table; the unit, 0 to 7; the method, 0 NOSEC or 1 CAPKEY; the policy access tag, any; the unit's identifier and its
 *          authentication and generation master keys; the keeper: NN_OWN_KEYS (0) for keys of its own, or NN_KEEPER(k), one
 *          more than k, for those of unit k, which it then shares.
 * Gives:   H1  units_len is not 4,096
 *          H5  unit above 7 or method above 1; keeper above 8, or one more than the unit's own number, or that of a unit whose record is
 *              not sound, used and with keys of its own
 *          A0  with count 0
 * Leaves:  with A0 the unit's record is new, whatever stood there, with no working key and no seed exchange of its own (a sharer has its
 *          keeper's); the other records are kept. With H1 and H5 every byte is kept.
 *
 * Units that share keys. A sharer has no keys: those given here are ignored, though the pointers must be good, and its record holds zeros.
 * Keys, the mask of valid versions and a pending seed exchange are its keeper's: SECURITY PROTOCOL OUT pages Set Key, Seed Exchange and
 * Change at a sharer act on the keeper's record, S is made with the keeper's identifier, and page 0011h shows the keeper's mask. So a key
 * that is set at one unit of the set is there for all, and a Change at one ends the working keys of all. Method, policy access tag and
 * identifier are each unit's own, and Set Attributes changes its unit alone. Give each unit of a set an identifier of its own: under one
 * key set that, beside a tag that is not zero, is what keeps a capability for one unit from holding at another. Who keeps whose keys is
 * fixed until a record is built anew.
 *
 * Take care when a keeper is built anew: with keys of its own, its sharers share the new ones from then on; as a sharer itself, it leaves
 * every unit that shared its keys unsound (1Bh), until it is built with keys of its own again or they are built anew.
 */
uint64_t nn_build(uint8_t *units, size_t units_len, uint32_t unit, uint32_t method, uint32_t tag,
                  const uint8_t identifier[NN_IDENTIFIER_LEN], const uint8_t auth_key[NN_KEY_LEN],
                  const uint8_t gen_key[NN_KEY_LEN], uint32_t keeper);

/*
 * nn_open - a command has come
 *
 * Gets:    the three buffers; the unit; the command, which is the CDB alone (bare) or the CDB with 78 bytes after it, the capability's
 *          descriptor (58) and its integrity check value (20) (wrapped); the security token of the path that it came by; the clock, in
 *          milliseconds, which may go back.
 * Gives:   H1  units_len is not 4,096, slots_len not 8,192 or reply_len not 512
 *          H2  token_len is not 16 to 64
 *          A3  with a reason from 1 to 17, or 1Bh
 *          A1  a command that carries data out passed, and waits in that slot, the lowest that is free: hand its data to nn_close
 *          A4  it passed, and no slot is free
 *          A0  a page of SECURITY PROTOCOL IN other than 0012h passed: its first NN_COUNT bytes stand in the reply, the smaller of
 *              the page's size and bytes 6-9 of the command
 *          A2  any other command passed: run it
 * Leaves:  A0 the reply's first NN_COUNT bytes new; A1 that slot new; everything else is kept, by the other answers every byte.
 */
uint64_t nn_open(const uint8_t *units, size_t units_len, uint8_t *slots, size_t slots_len, uint8_t *reply, size_t reply_len,
                 uint32_t unit, const uint8_t *command, size_t command_len, const uint8_t *token, size_t token_len,
                 uint64_t clock);

/*
 * nn_close - the data of a parked command have come
 *
 * Gets:    the three buffers; the slot; the data; the clock. The command is judged again from the start, by the records of the unit and of
 *          its keeper as they are now and by this clock; for SECURITY PROTOCOL OUT (B5h) the data are the parameter list, for other
 *          commands they have no part in the answer.
 * Gives:   H1  units_len is not 4,096, slots_len not 8,192 or reply_len not 512
 *          H3  the slot is above 15, free or unsound
 *          A3  with a reason from 1 to 19, or 1Bh, but not 2, 3 or 17, which a parked command can't have
 *          A2  the command passed: run it with its data
 *          A0  with count 0: a page of SECURITY PROTOCOL OUT passed and is done
 * Leaves:  with A0, A2 and A3 the slot is free; with A0 the unit's record is new, as the page says, or that of its keeper where the page
 *          is about keys. Everything else is kept, by H1 and H3 every byte.
 */
uint64_t nn_close(uint8_t *units, size_t units_len, uint8_t *slots, size_t slots_len, const uint8_t *reply, size_t reply_len,
                  uint32_t slot, const uint8_t *data, size_t data_len, uint64_t clock);

/*
 * nn_abort - a parked command is given up
 *
 * Gets:    the slot table; the slot.
 * Gives:   H1  slots_len is not 8,192
 *          H3  the slot is above 15, free or unsound
 *          A0  with count 0
 * Leaves:  with A0 the slot is free; every other byte is kept, by H1 and H3 every byte.
 */
uint64_t nn_abort(uint8_t *slots, size_t slots_len, uint32_t slot);

/*
 * nn_reset - every parked command is given up
 *
 * Gets:    the slot table.
 * Gives:   H1  slots_len is not 8,192
 *          A0  with count 0
 * Leaves:  with A0 all sixteen slots are free, unsound ones too: nothing else heals an unsound slot. By H1 every byte is kept.
 */
uint64_t nn_reset(uint8_t *slots, size_t slots_len);

/*
 * nn_sha1 - the SHA-1 of len bytes into out
 */
void nn_sha1(const uint8_t *message, size_t len, uint8_t out[20]);

/*
 * nn_hmac_sha1 - the HMAC-SHA1 of len bytes under a key of any length into out
 */
void nn_hmac_sha1(const uint8_t *key, size_t key_len, const uint8_t *message, size_t len, uint8_t out[20]);

#ifdef __cplusplus
}
#endif

#endif

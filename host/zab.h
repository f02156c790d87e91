/* One server's step, proved; a host keeps its bytes and carries its messages. */
#ifndef ZAB_H
#define ZAB_H

#include <stddef.h>
#include <stdint.h>

/* Sizes. Every number in a lent slice is a word: eight bytes, the lowest first. `room` is how many
   transactions a history holds, 1 to ZAB_MOST_ROOM; there are 3 to ZAB_MOST_SERVERS servers. */
enum {
    ZAB_MOST_SERVERS = 7,
    ZAB_MOST_ROOM = 64,
    ZAB_WORD = 8,                  /* bytes of a word */
    ZAB_RECORD_WORDS = 38,
    ZAB_RECORD = 8 * 38,           /* bytes of a record */
    ZAB_TOLD = 2,                  /* bytes of what is told */
    ZAB_SLOTS = 6                  /* slots of an outbox that a step may write */
};

/* Bytes of a history or a candidate, of a message, of an outbox slot (the receiver, then the message), of an outbox. */
#define ZAB_HISTORY_BYTES(room) (16 * (size_t)(room))
#define ZAB_MESSAGE_BYTES(room) (8 * (4 + 2 * (size_t)(room)))
#define ZAB_SLOT_BYTES(room) (8 * (5 + 2 * (size_t)(room)))
#define ZAB_OUTBOX_BYTES(room) (ZAB_SLOTS * ZAB_SLOT_BYTES(room))

/* The words of a record, by place, with nothing between them. The record's size is the version of this layout: another
   layout will have another size, and a record of another size is refused. A fresh record has the server's own number at ZAB_ME and is zero elsewhere. */
enum {
    ZAB_ME = 0,                    /* the server's number, from 0 */
    ZAB_STAGE = 1,                 /* LOOK 0, F1 to F4 1 to 4, L1 to L4 5 to 8 */
    ZAB_ORACLE = 2,                /* 0: none; else the server named, plus 1 */
    ZAB_P = 3,                     /* promised epoch */
    ZAB_A = 4,                     /* accepted epoch */
    ZAB_D = 5,                     /* how many transactions are delivered */
    ZAB_LEN = 6,                   /* how many the history holds */
    ZAB_LARGEST = 7,
    ZAB_CAND_A = 8,
    ZAB_CAND_LEN = 9,
    ZAB_JOINED = 10,               /* seven words each, a set: 0 or 1 for each server */
    ZAB_ACKED = 17,
    ZAB_SYNCED = 24,
    ZAB_COUNTS = 31                /* seven words */
};

/* Events. */
enum zab_event {
    ZAB_ON_ORACLE = 1,             /* `who` is named leader */
    ZAB_ON_RESTART = 2,
    ZAB_ON_DELIVERY = 3,           /* `msg` arrives from `who` */
    ZAB_ON_SUBMISSION = 4          /* `value` is submitted */
};

/* Refusals; 0 is none. The step itself answers 0 to 11; ROOM and TRACE are for hosts and checkers. */
enum zab_refusal {
    ZAB_STATE = 1,                 /* a length, a size or the record is not well formed */
    ZAB_EVENT = 2,
    ZAB_MESSAGE = 3,
    ZAB_ROLE = 4,
    ZAB_SENDER = 5,
    ZAB_PHASE = 6,
    ZAB_EPOCH = 7,
    ZAB_GAP = 8,
    ZAB_UNDO = 9,
    ZAB_FULL = 10,
    ZAB_SPENT = 11,
    ZAB_ROOM = 12,
    ZAB_TRACE = 13
};

/* One step of one server.

   Reads: n, room; record (ZAB_RECORD bytes), hist and cand (ZAB_HISTORY_BYTES(room) bytes each); event, one of
   enum zab_event; who, for an oracle's word the server named, for a delivery the sender; value, for a submission;
   msg (ZAB_MESSAGE_BYTES(room) bytes), for a delivery alone, else it is not looked at.

   Writes, where it returns 0: record, hist and cand; the first told[0] slots of out (out_len at least
   ZAB_OUTBOX_BYTES(room) bytes and a whole number of words), each the receiver and the message; told (ZAB_TOLD bytes):
   how many messages stand in out, and 1 if the host is to drop what waits to and from this server, else 0.
   Where it does not return 0, nothing is written at all.

   Returns 0, or a number of enum zab_refusal: ZAB_STATE too where a length is not as said here.

   No pointer may be null, also where its length is 0, and no two of record, hist, cand, msg, out and told may
   overlap. Nothing is kept after the call. */
uint8_t zab_step(uint8_t n, uint32_t room,
                 uint8_t *record, size_t record_len,
                 uint8_t *hist, size_t hist_len,
                 uint8_t *cand, size_t cand_len,
                 uint8_t event, uint8_t who, uint64_t value,
                 const uint8_t *msg, size_t msg_len,
                 uint8_t *out, size_t out_len,
                 uint8_t *told, size_t told_len);

/* A record of a trace is ZAB_TRACE_RECORD bytes, five words: the kind (E 1, B 2, V 3, X 4), the server (of an X the
   line), the epoch (of an X the refusal), the counter, the value; what a kind does not have is not looked at. */
enum {
    ZAB_TRACE_RECORD = 8 * 5,
    ZAB_TRACE_MOST = 1024,         /* records of a trace */
    ZAB_PLACE = 8                  /* bytes of a place */
};

/* The trace checker.

   Reads: n; recs, the records of the trace one after the other. Writes: nothing, but where it returns 1 to 6 the place of
   the record, from 0, as one word into told (ZAB_PLACE bytes).

   Returns 0 if the trace keeps the six rules; 1 to 6, the lowest rule that is broken at the first record at which one is;
   ZAB_TRACE for a malformed record, n outside 3 to 7, over ZAB_TRACE_MOST records, or a length not as said here.

   No pointer may be null, and the two may not overlap. */
uint8_t zab_check(uint32_t n, const uint8_t *recs, size_t recs_len, uint8_t *told, size_t told_len);

/* ---- A cluster in one process, for tests and replays. Here every number is a word, a uint64_t as the machine has it, and
   not bytes: nothing of this leaves the process. A cabinet's host needs none of it. */

/* The cluster's struct in words, by place. Fresh: n, room and depth set, the number of each of the seven servers in its
   record, and zero elsewhere. */
enum {
    ZAB_HELD = 369,                /* words of the struct */
    ZAB_HELD_N = 0,
    ZAB_HELD_ROOM = 1,
    ZAB_HELD_DEPTH = 2,            /* messages that a channel holds, 2 to ZAB_MOST_DEPTH */
    ZAB_HELD_MET = 3,              /* told by a run, not read: how many events it met, */
    ZAB_HELD_TAKEN = 4,            /* and how many of them were taken */
    ZAB_HELD_RECORDS = 5,          /* seven records of ZAB_RECORD_WORDS words; those from n on must fit, and are not used */
    ZAB_HELD_HEADS = 271,          /* 49 words: for each channel the slot of its first message, from 0 */
    ZAB_HELD_COUNTS = 320,         /* 49 words: how many messages wait in each */
    ZAB_MOST_DEPTH = 16,
    ZAB_EVENT_WORDS = 3
};

/* Words of all histories (and of all candidates), server after server; of the queue: `depth` message slots for each
   channel, the one from f to t being number n * f + t; of the outbox. */
#define ZAB_HISTORIES_WORDS(n, room) (2 * (size_t)(room) * (n))
#define ZAB_QUEUE_WORDS(n, room, depth) ((4 + 2 * (size_t)(room)) * (depth) * (n) * (n))
#define ZAB_OUTBOX_WORDS(room) (ZAB_SLOTS * (5 + 2 * (size_t)(room)))

/* A run: the first `budget` events, or all if there are fewer. A refusal of an event stops nothing.

   Reads: held (ZAB_HELD words), hists and cands (ZAB_HISTORIES_WORDS words each), queue (ZAB_QUEUE_WORDS words), out (at
   least ZAB_OUTBOX_WORDS words); events, ZAB_EVENT_WORDS words for each: the kind and two numbers, that is ZAB_ON_ORACLE, a server
   and whom it is to follow; ZAB_ON_RESTART, a server, anything; ZAB_ON_DELIVERY, sender and receiver; ZAB_ON_SUBMISSION, a server and the value.

   Writes, where it returns 0: all of held, and hists, cands, queue and out as the events say. A slot of the queue that is
   taken or emptied becomes zero. Where it does not return 0, nothing is written at all.

   Returns 0, or ZAB_STATE where a length is not as said here, a word is over its field, or a size, a record, a history, a
   head or a count is not well formed.

   No pointer may be null, and no two of held, hists, cands, queue, out and events may overlap. */
uint8_t zab_run(uint64_t *held, size_t held_len,
                uint64_t *hists, size_t hists_len,
                uint64_t *cands, size_t cands_len,
                uint64_t *queue, size_t queue_len,
                uint64_t *out, size_t out_len,
                const uint64_t *events, size_t events_len,
                size_t budget);

#endif

/*
 * A node of the cluster metadata store zomtagi, as the static library node_export. You bring a
 * transport, a clock and a disk. docs/EMBEDDING.md says how the exports are used together, and
 * example.c beside this file is a program that uses them.
 *
 *     zomtagi_slot *slot = zomtagi_slot_new();
 *     zomtagi_serve(slot, file, file_len, 3);
 *     ... store zomtagi_record, then zomtagi_stored(slot, 1) ...
 *     zomtagi_tick(slot, random_word());
 *     ... the same, then zomtagi_reply, and zomtagi_frame with zomtagi_sent until it is 38 ...
 *     zomtagi_slot_drop(slot);
 *
 * An export returns 0, or the number of a refusal. Refusals are listed in their order: if several
 * apply, the first is returned. Only exports that list 99 Memory return it. It may come in place of
 * any refusal that is listed with it, except 80, 82, 38, 43 and the 3 of a number above 15; for 34
 * and 37 see the steps. A call that is refused leaves the node as it was, unless its comment says
 * otherwise.
 */
#ifndef ZOMTAGI_H
#define ZOMTAGI_H

#include <stddef.h>
#include <stdint.h>
#include <stdlib.h>

#ifdef __cplusplus
extern "C" {
#endif

/*
 * A place for one node, which zomtagi_slot_new makes. A program has only pointers to it: a copy by
 * value doesn't compile. You must keep these rules, which nothing checks:
 *
 * - A slot has one call at a time, from any thread. After a fork only one of the two processes may
 *   use it.
 * - A slot isn't used after zomtagi_slot_drop.
 * - A pointer points to as many bytes as its length says. Only if that is 0 may it be NULL. What an
 *   export writes (buffer, len, gate, number ..) overlaps nothing else that it is given.
 */
typedef struct zomtagi_slot zomtagi_slot;

/*
 * The numbers of refusals, and what they mean. Only the exports have 80 to 82. A number keeps its
 * meaning; later versions may have more.
 */
enum {
    ZOMTAGI_OK = 0,
    ZOMTAGI_BAD_NAME = 1,           /* a part of a key is empty or too long */
    ZOMTAGI_VALUE_TOO_LONG = 2,     /* a body has more than 1,024 bytes */
    ZOMTAGI_BAD_NODE = 3,           /* no number from 0 to 15, or the node's own */
    ZOMTAGI_SHORT = 10,             /* the bytes end before the frame does */
    ZOMTAGI_BAD_MAGIC = 11,         /* the bytes don't begin as a frame does */
    ZOMTAGI_BAD_VERSION = 12,       /* the frame is of another version */
    ZOMTAGI_BAD_KIND = 13,          /* there is no such kind of frame */
    ZOMTAGI_TOO_LONG = 14,          /* the frame says that it is longer than any */
    ZOMTAGI_BAD_BODY = 15,          /* a field of the frame is at fault: zomtagi_check_frame says where */
    ZOMTAGI_LEFT_OVER = 16,         /* more bytes stand behind the frame */
    ZOMTAGI_BAD_SEAL = 17,          /* no key of the cluster sealed the bytes */
    ZOMTAGI_BAD_KEY = 18,           /* keys have 32 bytes, or 64 */
    ZOMTAGI_COUNTER_SPENT = 20,     /* this life of the node can't count another write of the key */
    ZOMTAGI_BAD_ENTRIES = 21,       /* the frame's object can't have arisen beside the one held */
    ZOMTAGI_STORE_FULL = 25,        /* the node holds 8,192 keys, and this is another one */
    ZOMTAGI_WRONG_KEY = 26,         /* the context is of another key */
    ZOMTAGI_OBJECT_TOO_LARGE = 27,  /* the object would be too large */
    ZOMTAGI_BAD_WATCH = 28,         /* a capacity out of range, or a seventeenth watch in a life */
    ZOMTAGI_NO_SUCH_WATCH = 29,     /* there is no watch of this number */
    ZOMTAGI_DAMAGED = 31,           /* no node file, or a damaged one: zomtagi_check_file says where */
    ZOMTAGI_OTHER_NODE = 32,        /* the file is of another node */
    ZOMTAGI_FILE_FULL = 33,         /* the file would have more than 2^40 bytes */
    ZOMTAGI_STOPPED = 34,           /* a record wasn't stored: free the node, and serve it again */
    ZOMTAGI_INCARNATION_SPENT = 35, /* there is no further life */
    ZOMTAGI_OLD_VERSION = 36,       /* the file is of version 1 */
    ZOMTAGI_PENDING = 37,           /* a record isn't stored or a frame isn't sent, or a batch is open */
    ZOMTAGI_NOTHING = 38,           /* there is nothing to hand out, or no batch to end */
    ZOMTAGI_NOT_ADDRESSED = 40,     /* the frame is addressed to another node */
    ZOMTAGI_NO_SUCH_READ = 43,      /* there is no context of this number */
    ZOMTAGI_NO_NODE = 80,           /* there is no node in the slot, or no plan in its own */
    ZOMTAGI_SHORT_BUFFER = 81,      /* the buffer is shorter than what it should hold */
    ZOMTAGI_BAD_LIFE = 82,          /* lives are numbered from 1 */
    ZOMTAGI_MEMORY = 99             /* memory ran out */
};

/*
 * Returns the name of a refusal, such as "BadName" for 1: "Ok" for 0, and "Unknown" for a number
 * that isn't in the list.
 */
static inline const char *zomtagi_refusal_name(uint16_t number) {
    switch (number) {
    case ZOMTAGI_OK: return "Ok";
    /* made by scripts/refusals: the names */
    case ZOMTAGI_BAD_NAME: return "BadName";
    case ZOMTAGI_VALUE_TOO_LONG: return "ValueTooLong";
    case ZOMTAGI_BAD_NODE: return "BadNode";
    case ZOMTAGI_SHORT: return "Short";
    case ZOMTAGI_BAD_MAGIC: return "BadMagic";
    case ZOMTAGI_BAD_VERSION: return "BadVersion";
    case ZOMTAGI_BAD_KIND: return "BadKind";
    case ZOMTAGI_TOO_LONG: return "TooLong";
    case ZOMTAGI_BAD_BODY: return "BadBody";
    case ZOMTAGI_LEFT_OVER: return "LeftOver";
    case ZOMTAGI_BAD_SEAL: return "BadSeal";
    case ZOMTAGI_BAD_KEY: return "BadKey";
    case ZOMTAGI_COUNTER_SPENT: return "CounterSpent";
    case ZOMTAGI_BAD_ENTRIES: return "BadEntries";
    case ZOMTAGI_STORE_FULL: return "StoreFull";
    case ZOMTAGI_WRONG_KEY: return "WrongKey";
    case ZOMTAGI_OBJECT_TOO_LARGE: return "ObjectTooLarge";
    case ZOMTAGI_BAD_WATCH: return "BadWatch";
    case ZOMTAGI_NO_SUCH_WATCH: return "NoSuchWatch";
    case ZOMTAGI_DAMAGED: return "Damaged";
    case ZOMTAGI_OTHER_NODE: return "OtherNode";
    case ZOMTAGI_FILE_FULL: return "FileFull";
    case ZOMTAGI_STOPPED: return "Stopped";
    case ZOMTAGI_INCARNATION_SPENT: return "IncarnationSpent";
    case ZOMTAGI_OLD_VERSION: return "OldVersion";
    case ZOMTAGI_PENDING: return "Pending";
    case ZOMTAGI_NOTHING: return "Nothing";
    case ZOMTAGI_NOT_ADDRESSED: return "NotAddressed";
    case ZOMTAGI_NO_SUCH_READ: return "NoSuchRead";
    case ZOMTAGI_NO_NODE: return "NoNode";
    case ZOMTAGI_SHORT_BUFFER: return "ShortBuffer";
    case ZOMTAGI_BAD_LIFE: return "BadLife";
    case ZOMTAGI_MEMORY: return "Memory";
    /* the end of the names */
    default: return "Unknown";
    }
}

/* ---- making and freeing ---- */

/* Returns an empty slot, or NULL if memory ran out. */
static inline zomtagi_slot *zomtagi_slot_new(void) {
    /* (two words of zeros: a flag, and where the node is) */
    return (zomtagi_slot *)calloc(2, sizeof(void *));
}

/*
 * Puts a node without a file into the slot, in the life of this number; it holds nothing. A node
 * that was in the slot is freed. Make sure that the node never had a life of this number or a
 * greater one.
 * Refused with 3 BadNode, 82 BadLife (life 0), 99 Memory: the slot is then as it was.
 */
uint16_t zomtagi_new(zomtagi_slot *slot, uint16_t node, uint32_t life);

/*
 * Puts the node of this number into the slot, served from the bytes of its file: it holds the
 * file's table, in the life after the last one in the file. A node that was in the slot is freed.
 * Store the record of the life first (zomtagi_record, zomtagi_stored); until then steps are refused
 * with 37. The bytes must be those that the disk holds: sync the file and its folder before you
 * read it. The bytes aren't used after the call.
 * Refused with 3 BadNode; 31 Damaged, 32 OtherNode, 31 Damaged at a gate, 25 StoreFull;
 * 36 OldVersion, 35 IncarnationSpent, 33 FileFull; 99 Memory: the slot is then as it was.
 */
uint16_t zomtagi_serve(zomtagi_slot *slot, const uint8_t *bytes, size_t bytes_len, uint16_t node);

/*
 * Frees the node in the slot, if there is one. The slot is empty afterwards, as a new one is: an
 * export that needs a node returns 80.
 */
void zomtagi_free(zomtagi_slot *slot);

/* Frees the slot, and the node in it; of NULL it does nothing. */
static inline void zomtagi_slot_drop(zomtagi_slot *slot) {
    if (slot != NULL) {
        zomtagi_free(slot);
        free(slot);
    }
}

/*
 * Copies out the 11 bytes of the file of a node that had no life, and their number. Write and sync
 * them, and sync the folder, before you serve the node from them.
 * Refused with 3 BadNode, 81 ShortBuffer.
 */
uint16_t zomtagi_empty_file(uint16_t node, uint8_t *buffer, size_t buffer_len, size_t *len);

/* ---- steps ----
 *
 * Each lets the node make the step of one event. Afterwards call, in this order: zomtagi_record,
 * and unless it returns 38, zomtagi_stored; zomtagi_reply, if you want the reply; zomtagi_frame and
 * zomtagi_sent, until there is no frame left.
 *
 * Each is refused with 80 NoNode; then with what its comment lists before "step"; then with:
 *   34 Stopped, 37 Pending; what the step refuses, which its comment lists after "step";
 *   33 FileFull: its record doesn't fit in the file;
 *   99 Memory. It comes in place of 34 or 37 only if the step names a key or a full prefix, or
 *   brings bytes. After a refusal nothing has changed.
 * Only a write and zomtagi_keep have a record, and only if the node was served from a file. A step
 * of any other kind is never refused with 33.
 *
 * A word is a random number, a new one each time.
 */

/*
 * Reads what the node shows under a key: reply 1. 1 BadName; step.
 */
uint16_t zomtagi_read(zomtagi_slot *slot, const uint8_t *prefix, size_t prefix_len,
                      const uint8_t *sub, size_t sub_len, const uint8_t *key, size_t key_len);

/*
 * Makes a record of what the node holds under the key, whoever wrote it; of nothing if it holds
 * nothing there: reply 6. 1 BadName; step.
 */
uint16_t zomtagi_keep(zomtagi_slot *slot, const uint8_t *prefix, size_t prefix_len,
                      const uint8_t *sub, size_t sub_len, const uint8_t *key, size_t key_len);

/*
 * Writes a value, having read what the context of this number says, or nothing for context 0. The
 * value replaces what that read has shown, and stands beside all else. The stamp is yours; the node
 * never reads it. Reply 2.
 * 43 NoSuchRead, 1 BadName, 2 ValueTooLong; step: 26 WrongKey, 25 StoreFull, 20 CounterSpent,
 * 27 ObjectTooLarge.
 */
uint16_t zomtagi_write(zomtagi_slot *slot, const uint8_t *prefix, size_t prefix_len,
                       const uint8_t *sub, size_t sub_len, const uint8_t *key, size_t key_len,
                       const uint8_t *body, size_t body_len, uint64_t stamp, uint64_t context);

/*
 * Writes a tombstone, as zomtagi_write writes a value. Refused as zomtagi_write is, except for 2.
 */
uint16_t zomtagi_delete(zomtagi_slot *slot, const uint8_t *prefix, size_t prefix_len,
                        const uint8_t *sub, size_t sub_len, const uint8_t *key, size_t key_len,
                        uint64_t stamp, uint64_t context);

/*
 * Writes a value over all that the node shows under the key. Reply 2.
 * 1 BadName, 2 ValueTooLong; step: 25 StoreFull, 20 CounterSpent, 27 ObjectTooLarge.
 */
uint16_t zomtagi_write_over(zomtagi_slot *slot, const uint8_t *prefix, size_t prefix_len,
                            const uint8_t *sub, size_t sub_len, const uint8_t *key,
                            size_t key_len, const uint8_t *body, size_t body_len,
                            uint64_t stamp);

/*
 * Writes a tombstone over all that the node shows. Refused as zomtagi_write_over is, except for 2.
 */
uint16_t zomtagi_delete_over(zomtagi_slot *slot, const uint8_t *prefix, size_t prefix_len,
                             const uint8_t *sub, size_t sub_len, const uint8_t *key,
                             size_t key_len, uint64_t stamp);

/*
 * Hands the node bytes that should be a frame for it. Reply 3 if the frame has no object, 4 if its
 * object has a write that the node didn't know, 5 if it has none. What came is in no file until its
 * key is written or kept. After reply 4 the key stands in the frame as in a reply: from byte 22 on if
 * byte 3 is 1 (GOSSIP), and from byte 20 on if it is 17 (XOBJECT).
 * step: 10 Short, 11 BadMagic, 12 BadVersion, 13 BadKind, 14 TooLong, 10 Short, 16 LeftOver,
 * 15 BadBody; 40 NotAddressed; 21 BadEntries, 25 StoreFull, 27 ObjectTooLarge. After one of these,
 * drop the bytes.
 */
uint16_t zomtagi_take(zomtagi_slot *slot, const uint8_t *frame, size_t frame_len, uint64_t word);

/* Lets time pass: reply 6. The step refuses nothing. */
uint16_t zomtagi_tick(zomtagi_slot *slot, uint64_t word);

/*
 * Lets the node join the cluster through a contact: reply 6. 3 BadNode for a number above 15; step:
 * 3 BadNode for the node itself.
 */
uint16_t zomtagi_join(zomtagi_slot *slot, uint16_t contact, uint64_t word);

/* Tells the node that a peer doesn't answer: reply 6. Refused as zomtagi_join is. */
uint16_t zomtagi_peer_down(zomtagi_slot *slot, uint16_t peer, uint64_t word);

/* Begins an exchange of the node with a peer: reply 6. Refused as zomtagi_join is. */
uint16_t zomtagi_exchange(zomtagi_slot *slot, uint16_t peer);

/*
 * Lets the node tell a peer which life it is in: reply 6. Call it before the join: a peer that
 * hears of a new life removes the node from its neighbours. Refused as zomtagi_join is.
 */
uint16_t zomtagi_hello(zomtagi_slot *slot, uint16_t peer);

/* Lets the node leave the cluster: reply 6. The step refuses nothing. */
uint16_t zomtagi_leave(zomtagi_slot *slot);

/*
 * Begins a watch of the changes under a full prefix, which notes the last `capacity` of them, 1 to
 * 1,024: reply 7, with the number of the watch. A life has at most 16 watches. 1 BadName; step: 28
 * BadWatch.
 */
uint16_t zomtagi_watch(zomtagi_slot *slot, const uint8_t *prefix, size_t prefix_len,
                       const uint8_t *sub, size_t sub_len, size_t capacity);

/*
 * Lets the watch of this number hand out what it has noted; it is empty afterwards: reply 8. step:
 * 29 NoSuchWatch.
 */
uint16_t zomtagi_changes(zomtagi_slot *slot, uint64_t number);

/* ---- batches ----
 *
 * Steps between zomtagi_begin_batch and zomtagi_end_batch have their records stored at once: after
 * a crash the file has all of them or none. Nothing is handed out of an open batch, and steps aren't
 * refused with 37. After its end call what you call after a step: zomtagi_record hands out the
 * records of all its steps, to be stored as one; zomtagi_reply has the reply of the last step; and
 * zomtagi_frame the frames of all steps, in order.
 *
 * A step that is refused is left out, and the batch stays open: make the step again or not, and end
 * the batch. Nothing takes back a step that was made.
 */

/*
 * Begins a batch.
 * Refused with 80 NoNode, 34 Stopped, 37 Pending (a batch is open, a record isn't stored, or a frame
 * isn't marked as sent).
 */
uint16_t zomtagi_begin_batch(zomtagi_slot *slot);

/*
 * Ends the batch.
 * Refused with 80 NoNode, 34 Stopped, 38 Nothing (no batch is open).
 */
uint16_t zomtagi_end_batch(zomtagi_slot *slot);

/* ---- driving ----
 *
 * A node does nothing by itself. Its plan says what is next, and when: a tick at the pace that you
 * choose; after each tick one exchange, with one member after the other; while the node has fewer
 * neighbours than three and than there are members, also a hello, if there was none in this life,
 * and a join, through one member after the other; and a member that sent nothing for too long counts
 * as down, once until a frame comes from it or the plan joins through it.
 *
 * A plan is of one life of one node, and begins without members: name all other nodes. Times are in
 * milliseconds from any moment on, and never fall. Call zomtagi_drive_time when the time has come
 * that zomtagi_plan_wake tells, and before you take further frames.
 *
 * Each zomtagi_drive_* is a batch: it does what is next, then what its name says. After it, also if
 * it was refused with anything but 34, 37 and 80, call what you call after a step: zomtagi_record and
 * zomtagi_stored; zomtagi_reply, of the last step, if there was one; and zomtagi_frame and
 * zomtagi_sent until no frame is left. Until then the next one is refused with 37. A task that memory
 * refuses stays next.
 *
 * Between these calls the node makes the steps that you ask for, such as writes, as ever.
 */

/*
 * A place for one plan, which zomtagi_plan_new makes. The rules of a slot are its own: one call at a
 * time, none after zomtagi_plan_drop, and a copy by value doesn't compile.
 */
typedef struct zomtagi_plan zomtagi_plan;

/* Returns an empty place for a plan, or NULL if memory ran out. */
static inline zomtagi_plan *zomtagi_plan_new(void) {
    /* (two words of zeros: a flag, and where the plan is) */
    return (zomtagi_plan *)calloc(2, sizeof(void *));
}

/*
 * Begins a plan without members, whose first tick is due now; one that was there is freed. Ticks are
 * `tick` milliseconds apart, at least 1. A member that sends nothing for `quiet` milliseconds counts
 * as down: members that hold the same answer no exchange, so let it be longer than a tick for each
 * member.
 * Refused with 99 Memory: the plan is then as it was.
 */
uint16_t zomtagi_plan_begin(zomtagi_plan *plan, uint64_t now, uint64_t tick, uint64_t quiet);

/* Frees the plan, if there is one; its place is empty afterwards. */
void zomtagi_plan_end(zomtagi_plan *plan);

/* Frees the place, and the plan in it; of NULL it does nothing. */
static inline void zomtagi_plan_drop(zomtagi_plan *plan) {
    if (plan != NULL) {
        zomtagi_plan_end(plan);
        free(plan);
    }
}

/*
 * Makes another node a member, unless it is one; the node of the slot itself isn't made one. It
 * counts as heard of now.
 * Refused with 80 NoNode, 3 BadNode, 99 Memory.
 */
uint16_t zomtagi_plan_add(zomtagi_slot *slot, zomtagi_plan *plan, uint64_t now, uint16_t member);

/*
 * Takes a member out, if it is one. Exchanges and joins then begin anew with the first. Call
 * zomtagi_drive_failure first.
 * Refused with 80 NoNode, 3 BadNode.
 */
uint16_t zomtagi_plan_remove(zomtagi_plan *plan, uint16_t member);

/*
 * Writes the time to *at from which on the plan has something to do, if nothing happens before.
 * Refused with 80 NoNode.
 */
uint16_t zomtagi_plan_wake(zomtagi_slot *slot, zomtagi_plan *plan, uint64_t *at);

/*
 * Does what is next: reply 6, if anything was. The word is random.
 * Refused with 80 NoNode, 34 Stopped, 37 Pending, 99 Memory.
 */
uint16_t zomtagi_drive_time(zomtagi_slot *slot, zomtagi_plan *plan, uint64_t now, uint64_t word);

/*
 * Does what is next, and then as zomtagi_take; the sender counts as heard of. Refused as that is.
 */
uint16_t zomtagi_drive_frame(zomtagi_slot *slot, zomtagi_plan *plan, uint64_t now,
                             const uint8_t *frame, size_t frame_len, uint64_t word);

/*
 * A link to a peer failed: does what is next, and then as zomtagi_peer_down, unless the peer counts
 * as down already. Refused as that is.
 */
uint16_t zomtagi_drive_failure(zomtagi_slot *slot, zomtagi_plan *plan, uint64_t now, uint16_t peer,
                               uint64_t word);

/* ---- what the node hands out ----
 *
 * Each export copies bytes to the front of the buffer, and writes their number to *len. With 81
 * ShortBuffer it writes only *len: call it again with a buffer of that many bytes. After any other
 * refusal the buffer and *len are as they were.
 */

/*
 * Hands out the record that you have to store, or all records of a batch that has ended, and in
 * *gate the offset of the closed gate of your file. Write all these bytes except the first at
 * *gate + 1, sync, write the first at *gate, sync; then call zomtagi_stored.
 * If the first write fails, as on a full disk, you may make it again, with all these bytes, as
 * often as it takes: the node waits. If another call fails, repeat none, and call zomtagi_stored
 * with 0.
 * Refused with 80 NoNode, 38 Nothing, 81 ShortBuffer: *gate is then as it was.
 */
uint16_t zomtagi_record(zomtagi_slot *slot, size_t *gate, uint8_t *buffer, size_t buffer_len,
                        size_t *len);

/*
 * Says that you stored what zomtagi_record handed out; or, with is_stored 0, that you failed to at
 * any point, which stops the node: free it, and serve it from the file again.
 * Refused with 80 NoNode, 34 Stopped, 38 Nothing.
 */
uint16_t zomtagi_stored(zomtagi_slot *slot, uint8_t is_stored);

/*
 * Hands out the reply of the last step that was made; 38 Nothing until its record is stored, while
 * a batch is open, and if the node is stopped. Numbers are big endian. The first byte says which
 * reply it is:
 *
 *   1 looked    the number of values (8 bytes), then each: its stamp (8); 1 (1 byte), the length of
 *               its body (8) and the body, or 0 (1 byte), for a tombstone
 *   2 wrote     3 taken     4 fresh     5 stale     6 done     (nothing follows)
 *   7 watching  the number of the watch (8)
 *   8 changed   how many changes were missed (8), the number of the others (8), then of each, the
 *               oldest first, its key and its version vector after the change: the number of writers
 *               (8), and of each, in the order of nodes and lives, the node (2), its life (4; 0 in
 *               what a file of version 1 brought), and how many of its writes are known (8)
 *
 * A key is its prefix, its sub-prefix and its name, each with its length before it, in 2 bytes.
 * Refused with 80 NoNode, 38 Nothing, 81 ShortBuffer; 99 Memory, after which it may be called
 * again.
 */
uint16_t zomtagi_reply(zomtagi_slot *slot, uint8_t *buffer, size_t buffer_len, size_t *len);

/*
 * Hands out the next frame to send. Its bytes 6 and 7 are its addressee, and its bytes 16 to 19 say
 * how many follow the first 20. It stays the next one until you call zomtagi_sent.
 * Refused with 80 NoNode, 38 Nothing (none is left, a record isn't stored, a batch is open, the node
 * is stopped), 81 ShortBuffer.
 */
uint16_t zomtagi_frame(zomtagi_slot *slot, uint8_t *buffer, size_t buffer_len, size_t *len);

/* Says that you sent the next frame, if there is one, even if it never arrives. 80 NoNode. */
uint16_t zomtagi_sent(zomtagi_slot *slot);

/* ---- contexts ---- */

/*
 * Keeps the context of the last reply, which must be that of a read, and writes its number, from 1,
 * to *number. The context takes memory until it is forgotten, or the node is freed.
 * Refused with 80 NoNode, 38 Nothing (the last step was no read, or its reply isn't handed out), 99
 * Memory: *number is as it was.
 */
uint16_t zomtagi_keep_context(zomtagi_slot *slot, uint64_t *number);

/*
 * Forgets the context of this number, if there is one. A later context may get the same number. 80
 * NoNode.
 */
uint16_t zomtagi_forget_context(zomtagi_slot *slot, uint64_t number);

/* ---- what the node holds, without a step ----
 *
 * What the node holds may not be stored yet, and a stopped node answers too. Nothing changes.
 */

/*
 * Hands out the full prefixes that hold a key, in order, one after the other: the prefix and the
 * sub-prefix, each with its length before it, in 2 bytes. Refused with 80 NoNode, 81 ShortBuffer,
 * 99 Memory.
 */
uint16_t zomtagi_prefixes(zomtagi_slot *slot, uint8_t *buffer, size_t buffer_len, size_t *len);

/*
 * Hands out the keys under a full prefix, in order, one after the other: 1 (1 byte) if all that is
 * shown under the key was deleted, or 0, and then the key as in a reply; no bytes if there are none.
 * Refused with 80 NoNode, 1 BadName, 81 ShortBuffer, 99 Memory.
 */
uint16_t zomtagi_list(zomtagi_slot *slot, const uint8_t *prefix, size_t prefix_len,
                      const uint8_t *sub, size_t sub_len, uint8_t *buffer, size_t buffer_len,
                      size_t *len);

/*
 * Hands out what is shown under a key: the number of values (8 bytes), then each, as in reply 1. It
 * is no step, so it may be called while a record is being stored, and it gives no context: a write
 * that should replace just this needs zomtagi_read. Refused with 80 NoNode, 1 BadName, 81
 * ShortBuffer, 99 Memory.
 */
uint16_t zomtagi_peek(zomtagi_slot *slot, const uint8_t *prefix, size_t prefix_len,
                      const uint8_t *sub, size_t sub_len, const uint8_t *key, size_t key_len,
                      uint8_t *buffer, size_t buffer_len, size_t *len);

/*
 * Hands out the node's neighbours, at most 4, the one of longest standing first, each in 2 bytes. A
 * node without neighbours hears of no write: join. Refused with 80 NoNode, 81 ShortBuffer, 99
 * Memory.
 */
uint16_t zomtagi_neighbours(zomtagi_slot *slot, uint8_t *buffer, size_t buffer_len, size_t *len);

/*
 * Hands out the root of the tree over all that the node holds, 32 bytes. Nodes that hold the same
 * have equal roots. Refused with 80 NoNode, 81 ShortBuffer.
 */
uint16_t zomtagi_root(zomtagi_slot *slot, uint8_t *buffer, size_t buffer_len, size_t *len);

/* What is told of a node. */
typedef struct zomtagi_node_info {
    uint16_t number;
    uint8_t is_stopped; /* 1 if a record wasn't stored, else 0 */
    uint32_t life;
    size_t keys; /* how many it holds, of at most 8,192 */
    size_t gate; /* the offset of the closed gate of its file, with which it ends; 0 without one */
} zomtagi_node_info;

/* Tells what the node is. Refused with 80 NoNode: *info is then as it was. */
uint16_t zomtagi_about(zomtagi_slot *slot, zomtagi_node_info *info);

/* ---- of bytes alone ----
 *
 * Each needs no slot, and returns 0 if the bytes are right. It changes nothing, and writes *at only
 * as its comment says.
 */

/*
 * Says what zomtagi_serve would refuse of these bytes, for the node of this number. With 31 Damaged
 * *at is the offset from which on they aren't what a file has there: what to do goes by it
 * (docs/FILES.md).
 * Refused as zomtagi_serve is.
 */
uint16_t zomtagi_check_file(const uint8_t *bytes, size_t bytes_len, uint16_t node, size_t *at);

/*
 * Says why no node would take these bytes for a frame. With 15 BadBody *at is the offset of the
 * first field that is at fault, or of what is left after the last one.
 * Refused with 10 Short, 11 BadMagic, 12 BadVersion, 13 BadKind, 14 TooLong, 10 Short, 16 LeftOver,
 * 15 BadBody; 99 Memory.
 */
uint16_t zomtagi_check_frame(const uint8_t *frame, size_t frame_len, size_t *at);

/*
 * Hands out the bytes of a clean copy of the file of the node of this number: of the same last life
 * and table, with one record for each key. The records of a long file can be handed in piece by
 * piece: first those at its front, with a closed gate (0) behind them; then each copy with the next
 * records in the place of its closed gate. Write the last copy to a new file, sync it, and rename it.
 * Refused with 3 BadNode; 31 Damaged, 32 OtherNode, 25 StoreFull; 81 ShortBuffer, and then *len says
 * how long the copy is; 99 Memory.
 */
uint16_t zomtagi_clean_copy(const uint8_t *bytes, size_t bytes_len, uint16_t node,
                            uint8_t *buffer, size_t buffer_len, size_t *len);

/*
 * Hands out the seal of a frame, 16 bytes: send the frame, and the seal behind it. The keys of the
 * cluster are 32 bytes, the current key, or 64: behind it the previous one, which only opens. The
 * library keeps no copy of them; wipe yours.
 * Refused with 18 BadKey; 81 ShortBuffer, and then *len says 16.
 */
uint16_t zomtagi_seal(const uint8_t *keys, size_t keys_len, const uint8_t *frame, size_t frame_len,
                      uint8_t *buffer, size_t buffer_len, size_t *len);

/*
 * Says whether the bytes are a frame, and behind it its seal under one of the keys; *len is then how
 * many of them are the frame, which zomtagi_take takes. Otherwise *len is as it was.
 * Refused with 18 BadKey; 17 BadSeal.
 */
uint16_t zomtagi_open(const uint8_t *keys, size_t keys_len, const uint8_t *bytes, size_t bytes_len,
                      size_t *len);

#ifdef __cplusplus
}
#endif

#endif

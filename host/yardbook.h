/*
 * Yardbook ordering engine: the C interface of libyardbook.a.
 *
 * The host lends a replica state of YARDBOOK_STATE_WORDS words and calls. The library keeps nothing between calls, has no
 * globals, allocates nothing and calls nothing but memset. Each call is proved equal to its written definition for every
 * input: no content of the lent words is undefined behaviour, and a damaged state is answered with YARDBOOK_REFUSED_MALFORMED.
 *
 * What the host owes for each pointer and its count of words:
 *   - the pointer is aligned to 4 bytes and has that many words behind it; with count 0 it may be null;
 *   - that of a digest, which has no count, is aligned to 4 bytes, is never null and has YARDBOOK_DIGEST_WORDS words behind it;
 *   - a state that a call may change is used by no other call or thread meanwhile. Different states are independent;
 *     calls that take `const uint32_t *state` may run on one state at the same time;
 *   - the words of a record, of a digest, of a pending buffer and of the state do not overlap.
 *
 * The host checks signatures before it hands over a record, a note or a bundle, those of the two certificates in a record too: the
 * library takes a mask of signers at its word.
 *
 * Every call but yardbook_open asks first whether the state has the right size (1) and is well formed (3), which reads
 * the whole state. Each call's comment names its questions in the order in which they are asked, and the first "no" is the
 * answer's number. A call that answers another number than 0 changes no word, but for yardbook_take_vertex_with, which with
 * YARDBOOK_REFUSED_MISSING_PARENT puts the record into the buffer.
 *
 * A member makes its records with yardbook_propose and signs its no-votes with yardbook_sign_no_vote. A host that sends no other
 * records and no-votes than these, each once, is an honest member: the calls make at most one record for a round, and never both
 * a record that votes for a leader and a no-vote against it. For that the host keeps the state from one call to the next and
 * does not open it again, since opening forgets what was made and signed. A host that may restart stores the state before it sends.
 */
#ifndef YARDBOOK_H
#define YARDBOOK_H

#include <stddef.h>
#include <stdint.h>

#ifdef __cplusplus
extern "C" {
#endif

#define YARDBOOK_VERSION "0.7.0"

/* Rounds go from 1 to YARDBOOK_ROUNDS, and a group has at most YARDBOOK_MEMBERS members. A vertex id is 16 * round + member. */
#define YARDBOOK_ROUNDS 32
#define YARDBOOK_MEMBERS 16

/*
 * A digest is the host's name for its block: 32 bytes as eight words; any words. Word i has the bytes 4i to 4i + 3, the first of them
 * the lowest (little-endian). Every member of a group must use the same order, since records are compared word by word.
 */
#define YARDBOOK_DIGEST_WORDS 8
#define YARDBOOK_DIGEST_BYTES (4 * YARDBOOK_DIGEST_WORDS)

/* A record has room for so many weak ids. */
#define YARDBOOK_WEAK_SLOTS 5

/* The words of a record. A mask has bit p set for member p. */
enum {
    YARDBOOK_RECORD_ROUND = 0,
    YARDBOOK_RECORD_SOURCE = 1,
    YARDBOOK_RECORD_STRONG = 2,   /* mask of the parents in the round before */
    YARDBOOK_RECORD_TIMEOUTS = 3, /* mask of the signers of a timeout certificate for the round before */
    YARDBOOK_RECORD_NO_VOTES = 4, /* mask of the signers of a no-vote certificate for the round before */
    YARDBOOK_RECORD_DIGEST = 5,   /* YARDBOOK_DIGEST_WORDS words: the host's block */
    YARDBOOK_RECORD_WEAK_COUNT = YARDBOOK_RECORD_DIGEST + YARDBOOK_DIGEST_WORDS,
    YARDBOOK_RECORD_WEAK = YARDBOOK_RECORD_WEAK_COUNT + 1 /* YARDBOOK_WEAK_SLOTS ids, rising; those beyond the count are 0 */
};

/* Words of a record: 19. */
#define YARDBOOK_RECORD_WORDS (YARDBOOK_RECORD_WEAK + YARDBOOK_WEAK_SLOTS)

/* Words of a replica state: 9,448. From YARDBOOK_CELLS on, each round and member has a cell: a record but for round and source. */
#define YARDBOOK_CELLS 744
#define YARDBOOK_CELL_WORDS (YARDBOOK_RECORD_WORDS - YARDBOOK_RECORD_STRONG)
#define YARDBOOK_STATE_WORDS (YARDBOOK_CELLS + YARDBOOK_ROUNDS * YARDBOOK_MEMBERS * YARDBOOK_CELL_WORDS)

/* Words of a pending buffer: 609. It is the count of its records, at most YARDBOOK_BUFFER_SLOTS, these by rising id, and zeros. */
#define YARDBOOK_BUFFER_SLOTS 32
#define YARDBOOK_BUFFER_WORDS (1 + YARDBOOK_BUFFER_SLOTS * YARDBOOK_RECORD_WORDS)

/* What an answer's number says. */
enum {
    YARDBOOK_OK = 0,                      /* admitted */
    YARDBOOK_REFUSED_STATE_SIZE = 1,      /* the state has not YARDBOOK_STATE_WORDS words */
    YARDBOOK_REFUSED_MEMBER_COUNT = 2,    /* n is none of 4, 7, 10, 13, 16 */
    YARDBOOK_REFUSED_MALFORMED = 3,       /* the state is not well formed */
    YARDBOOK_REFUSED_RECORD_SIZE = 4,     /* the record has not YARDBOOK_RECORD_WORDS words */
    YARDBOOK_REFUSED_ROUND = 5,           /* the round is not 1 to 32 */
    YARDBOOK_REFUSED_SOURCE = 6,          /* the source or signer is n or above; opening: own is above n */
    YARDBOOK_REFUSED_MASK_BITS = 7,       /* a mask of the record, or a bundle's mask, has a bit at n or above */
    YARDBOOK_REFUSED_STRONG = 8,          /* the strong mask is not 0 in round 1, or no quorum later */
    YARDBOOK_REFUSED_TIMEOUTS = 9,        /* the timeout mask is no quorum where it must be, or not 0 elsewhere */
    YARDBOOK_REFUSED_NO_VOTES = 10,       /* the no-vote mask likewise */
    YARDBOOK_REFUSED_WEAK = 11,           /* the weak ids do not rise, or one is out of range */
    YARDBOOK_REFUSED_DUPLICATE = 12,      /* known already: this vertex, held or buffered, this source's first message, this
                                             signer's note, every timeout of a bundle (also of an empty one), a timeout also
                                             by a vertex that carried it; or made already: this round's own record, this
                                             round's own no-vote */
    YARDBOOK_REFUSED_CONFLICT = 13,       /* a different vertex of this round and source is held or buffered */
    YARDBOOK_REFUSED_MISSING_PARENT = 14, /* a parent is not held; the answer's id is the smallest such. With a buffer, the
                                             record is in it now */
    YARDBOOK_REFUSED_PAST_END = 15,       /* k is above the list's count */
    YARDBOOK_REFUSED_WATCHER = 16,        /* the state is a watcher's */
    YARDBOOK_REFUSED_SIGNING = 17,        /* there is no round before the current one, its leader's vertex is held, or the
                                             current round's own record was made */
    YARDBOOK_REFUSED_FEW_PARENTS = 18,    /* from round 2 on, the own record would have no quorum of strong parents */
    YARDBOOK_REFUSED_BUFFER = 19,         /* the buffer has not YARDBOOK_BUFFER_WORDS words, or is not well formed: its count is
                                             above YARDBOOK_BUFFER_SLOTS, the ids of its records do not rise, one of them would
                                             be answered 5 to 11, or a word behind them is not 0 */
    YARDBOOK_REFUSED_BUFFER_FULL = 20     /* a parent is not held, and the buffer is full of other records */
};

typedef struct {
    uint32_t number;
    uint32_t id;      /* with YARDBOOK_REFUSED_MISSING_PARENT the smallest missing parent's id, else 0 */
    uint32_t leaders; /* how many entries the call added to the leader list, and to the journal */
    uint32_t journal;
} yardbook_answer;

typedef struct {
    yardbook_answer answer;                 /* its id and counts are 0 */
    uint32_t record[YARDBOOK_RECORD_WORDS]; /* all 0 where the number is not 0 */
} yardbook_proposal;

typedef struct {
    uint32_t number; /* with another number than 0, the others are 0 */
    uint32_t current_round;
    uint32_t committed_round;
    uint32_t leader_count;
    uint32_t journal_count;
} yardbook_state_status;

/* Words start, start + 1, .. of the lent state, `length` of them. Both are 0 where the number is not. */
typedef struct {
    uint32_t number;
    uint32_t start;
    uint32_t length;
} yardbook_part;

/*
 * Opens the state for a group of n members, whatever its words were. Asks 1, 2 and 6. Writes every word.
 * `own` is the own member plus 1, or 0 for a watcher, which takes and reads but proposes and signs nothing.
 */
yardbook_answer yardbook_open(uint32_t *state, size_t state_words, uint32_t n, uint32_t own);

/*
 * Takes a vertex that reliable broadcast has delivered. Asks 1 and 3 to 14.
 * Of its round and source, the same vertex held is answered 12 and another one 13. The same one is the same in all words of its
 * record, all eight of the digest included.
 * Writes the vertex to its cell. Its timeout mask joins the timeouts of the round before, and yardbook_take_timeout of such a
 * signer answers 12 from then on. The current round may rise, and is at least the vertex's round afterwards. Every round that has
 * become committable is committed: the leaders taken join the leader list, and their histories the journal. A round is committable
 * if its leader's vertex is held and 2f + 1 members of n = 3f + 1 vote for it: a member does if its vertex of the next round, or its
 * first message of that round, has the leader in its strong mask. One that does so by both counts once.
 */
yardbook_answer yardbook_take_vertex(uint32_t *state, size_t state_words, const uint32_t *record, size_t record_words);

/*
 * Takes a delivered vertex, parents first or not: one that comes too early waits in the pending buffer. Asks 1, 3, 19 and 4 to 13,
 * and, where a parent is not held, the buffer: 12 or 13 if it has a record of this round and source, the same in all words or another;
 * 20 if it is full; else the record is put into it, and the answer is 14.
 * Admitted, the vertex is taken as by yardbook_take_vertex, and then the buffered records by rising id, each of which has its
 * parents by then or stays. Those taken, or held already in this or another form, leave. So one call may admit up to 33 vertices;
 * the answer's counts are those of all of them, and the state is that of yardbook_take_vertex for each in turn.
 *
 * With 14 the host has nothing to do but, if it likes, to fetch the vertex of the answer's id. With 20 the record is not kept: the
 * host hands it over again once others have been admitted. A vertex whose parents are held is never answered 20. Signatures are
 * checked before a record is handed over: what is in the buffer is taken without asking the host again.
 *
 * The buffer is the host's, like the state. It is all zeros at first, and again whenever the state is opened, and is lent to
 * the calls on one state only, as the last one left it. A host that may restart stores it with the state, or starts with zeros and
 * asks the senders again for what waited; so it may do at any time, as when records whose parents never come fill the buffer.
 * yardbook_take_vertex knows no buffer: a record that waits for a vertex taken there leaves after the next one that is admitted
 * here, so a host does best to take all its vertices by one of the two calls.
 */
yardbook_answer yardbook_take_vertex_with(uint32_t *state, size_t state_words, uint32_t *buffer, size_t buffer_words,
                                          const uint32_t *record, size_t record_words);

/*
 * Takes a sender's first broadcast message, seen before delivery. Asks 1 and 3 to 12.
 * Marks the source heard, and in votes if the strong mask has the previous round's leader; then commits as above.
 */
yardbook_answer yardbook_take_first_message(uint32_t *state, size_t state_words, const uint32_t *record, size_t record_words);

/* Takes a signer's timeout for the round. Asks 1, 3, 5, 6 and 12. Sets one bit, and may raise the current round. */
yardbook_answer yardbook_take_timeout(uint32_t *state, size_t state_words, uint32_t round, uint32_t signer);

/*
 * Takes a bundle: the timeouts for the round by all members of the mask. Asks 1, 3, 5, 7 and 12.
 * Members noted before do no harm, and 12 says that nobody in the mask is new. Sets the bits of the new members, and may raise the
 * current round. Admitted, its answer and every word are those of yardbook_take_timeout for each new member, in any order.
 */
yardbook_answer yardbook_take_timeouts(uint32_t *state, size_t state_words, uint32_t round, uint32_t mask);

/* Takes a signer's no-vote for the round. Asks 1, 3, 5, 6 and 12. Sets one bit. */
yardbook_answer yardbook_take_no_vote(uint32_t *state, size_t state_words, uint32_t round, uint32_t signer);

/*
 * Makes the own member's record for the current round, with the host's digest. Asks 1, 3, 16, 5, 9, 10, 12 and 18, in this order.
 * Strong parents are all held vertices of the round before, less its leader's if a no-vote against it was signed here. Where the
 * record lacks that leader it carries the timeouts taken, alone or with a vertex, and if the own member leads the current round the
 * no-votes taken: 9 or 10 says that these are no quorum yet. Weak parents are the f lowest held vertices, two or more rounds down,
 * that the strong parents do not reach.
 * Writes only that the round's record was made; nothing is admitted. The host sends the record to all as its first broadcast
 * message, and hands it back itself like that of any other member, to yardbook_take_first_message and, delivered, to
 * yardbook_take_vertex.
 */
yardbook_proposal yardbook_propose(uint32_t *state, size_t state_words, const uint32_t digest[YARDBOOK_DIGEST_WORDS]);

/*
 * Signs the own member's no-vote against the leader of the round before the current one. Asks 1, 3, 16, 17 and 12, in this order.
 * Writes that it was signed, and takes it: sets the own bit among that round's no-votes. The host sends it to all the others,
 * which hand it to yardbook_take_no_vote.
 */
yardbook_answer yardbook_sign_no_vote(uint32_t *state, size_t state_words);

/* The rounds and the counts. Asks 1 and 3. Changes no word. */
yardbook_state_status yardbook_status(const uint32_t *state, size_t state_words);

/* Whether the leader list, or the journal, can be had from entry k on. Asks 1, 3 and 15. Changes no word, and adds nothing. */
yardbook_answer yardbook_ask_leaders(const uint32_t *state, size_t state_words, uint32_t k);
yardbook_answer yardbook_ask_journal(const uint32_t *state, size_t state_words, uint32_t k);

/* Entries k up to the count, as ids, where they stand in the lent words, with the number of asking; no entries where that is not 0. */
yardbook_part yardbook_hand_leaders(const uint32_t *state, size_t state_words, uint32_t k);
yardbook_part yardbook_hand_journal(const uint32_t *state, size_t state_words, uint32_t k);

#ifdef __cplusplus
}
#endif

#endif

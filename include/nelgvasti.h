/* Nelgvasti for C: canonical lists of DNS messages, sameness, normal forms, digests of zones, hashes for NSEC3, key tags, and names and
 * records in canonical form and order.
 *
 * What each call answers and writes is proved. What its caller owes is not checked:
 *
 *  - No pointer is null, also where its length is 0: (const uint8_t *)"" leads to no octets. Each leads to as many octets, numbers or
 *    structures as its length says, or to one.
 *  - What a call reads is initialised, and nothing writes it during the call. What a call writes overlaps nothing else that the call is
 *    given, and nothing else reads or writes it during the call.
 *  - Numbers, structures and buffers that a call may write are initialised too, with any values.
 *  - Pointers to numbers and structures are aligned for them. What a length counts is at most 9,223,372,036,854,775,807 octets.
 *  - The stack has room for the call. Calls on stacks of 64 KB were tested.
 *  - malloc, realloc and free are of one allocator. No call is made in a signal handler, or in the forked child of a process with threads.
 *
 * A call keeps nothing after it returns: no state, none of its caller's memory and none of its own. So calls may run in several threads at a
 * time, with other memory to write each. Nothing is printed.
 *
 * Messages, names and records are octets in wire format (RFC 1035). A message is read as the program `dnscanon` reads it: octets after
 * its last item do not count. Compression pointers are followed in messages, and nowhere else.
 *
 * In canonical form a record's names are in full, and in lowercase if it is the owner, or a name in data of NS, CNAME, SOA, PTR, MX, RP, SRV,
 * DNAME or RRSIG. RFC 4034 section 6.2 has names in lowercase in data of fourteen more types: MD, MF, MB, MG, MR, MINFO, AFSDB, RT, SIG, PX, NXT,
 * NAPTR, KX and A6. They are octets here, in which a pointer or a capital letter of a name stays. Calls whose names end in _by take a number:
 * with NELGVASTI_LISTED all of them but A6 have their names in full and in lowercase. That is what a signer, a validator or a zone's digest
 * wants, since servers write such names with capital letters and pointers.
 */
#ifndef NELGVASTI_H
#define NELGVASTI_H

#include <stddef.h>
#include <stdint.h>

#ifdef __cplusplus
extern "C" {
#endif

/* The version of this header. */
#define NELGVASTI_VERSION_MAJOR 0
#define NELGVASTI_VERSION_MINOR 1
#define NELGVASTI_VERSION_PATCH 0
#define NELGVASTI_VERSION (NELGVASTI_VERSION_MAJOR * 65536 + NELGVASTI_VERSION_MINOR * 256 + NELGVASTI_VERSION_PATCH)

/* The answers of all calls but nelgvasti_version. They are the exit statuses of `dnscanon`, and one more. NELGVASTI_MEMORY may come in place
 * of any other answer of a call that takes memory. Any other answer comes exactly if the arguments call for it. */
enum {
    NELGVASTI_DONE = 0,       /* everything was written */
    NELGVASTI_SHORT = 1,      /* a message has fewer than 12 octets; the position says which message */
    NELGVASTI_ITEM = 2,       /* an item of a message can't be read; the position says which */
    NELGVASTI_USAGE = 5,      /* an argument is not what the call takes */
    NELGVASTI_MEMORY = 8,     /* memory ran out */
    NELGVASTI_NO_SOA = 10,    /* the messages have no SOA record of the apex */
    NELGVASTI_TOO_LARGE = 11, /* the normal form has more than 65,535 octets */
    NELGVASTI_TOO_SMALL = 20  /* the buffer has too little room; its length says how much is needed */
};

/* By which formats of RDATA a call whose name ends in _by reads messages and makes canonical forms. */
enum {
    NELGVASTI_USUAL = 0, /* those of the calls without this argument */
    NELGVASTI_LISTED = 1 /* and those of MD, MF, MB, MG, MR, MINFO, AFSDB, RT, SIG, PX, NXT, NAPTR and KX (RFC 4034 section 6.2) */
};

/* Which message is refused, from 0, and which of its items is the first that can't be read: sections are 0 to 3 (question, answer, authority,
 * additional), and items count from 0 in each. It is written if the answer is NELGVASTI_ITEM, or NELGVASTI_SHORT, and then with section and
 * index 0. Else it is as it was. */
struct nelgvasti_item_position {
    uint32_t message;
    uint32_t section;
    uint32_t index;
};

/* A hash for NSEC3. */
struct nelgvasti_hash {
    uint8_t octets[20];
};

/* The digest of a zone: the number of its records, the number of their canonical octets, and the SHA-384 digest of these. */
struct nelgvasti_digest {
    uint64_t records;
    uint64_t octets;
    uint8_t digest[48];
};

/* The version of the library, as NELGVASTI_VERSION is that of the header. A header and a library fit together if their major and minor numbers
 * are equal. Their patch numbers, in the lowest eight bits, may differ.
 *
 *     if (nelgvasti_version() >> 8 != NELGVASTI_VERSION >> 8) return 1;
 */
uint32_t nelgvasti_version(void);

/* Writes how many octets and how many records the canonical list of a message has.
 *
 *     size_t octets = 0, records = 0;
 *     struct nelgvasti_item_position position = {0, 0, 0};
 *     uint32_t answer = nelgvasti_canonical_size(message, length, &octets, &records, &position);
 *     if (answer == NELGVASTI_DONE) printf("%zu records, %zu octets\n", records, octets);
 *
 * DONE; SHORT, ITEM, MEMORY: the numbers are as they were.
 */
uint32_t nelgvasti_canonical_size(const uint8_t *message, size_t message_length,
                                  size_t *octets, size_t *records,
                                  struct nelgvasti_item_position *position);

/* The same by formats: NELGVASTI_USUAL or NELGVASTI_LISTED. Under NELGVASTI_LISTED pointers in the names of these types are followed, except in
 * KX (RFC 3597 section 4), and an item is refused whose data are not those of its type, or have more than 65,535 octets with names in full.
 *
 * DONE; USAGE: it is another number; SHORT, ITEM, MEMORY. At all but DONE the numbers are as they were.
 */
uint32_t nelgvasti_canonical_size_by(uint32_t formats,
                                     const uint8_t *message, size_t message_length,
                                     size_t *octets, size_t *records,
                                     struct nelgvasti_item_position *position);

/* Writes the canonical list of a message to `out`, and the number of its octets to `out_length`: the canonical octets of each record other than
 * OPT, one record after the other in canonical order (RFC 4034 section 6). Records that are alike except for TTL and ASCII case occur once,
 * with the least TTL (RFC 2181 section 5.2). A record says itself where it ends: an owner without pointers, type, class, TTL, the number of
 * octets of data in two octets, and these.
 *
 * nelgvasti_canonical_size gives the exact size of a list. A buffer of 49 octets for each octet of the message is never too small, and one of
 * 3,173,770 octets not for a message of at most 65,535. For a record takes in the list what it takes in the message, except that pointers of 2
 * octets become names of at most 255. An RP record with three of them grows most, from 16 octets to 3 * 255 + 10 = 775; and 775 / 16 times
 * the 65,523 octets after the header is 3,173,770.3.
 *
 *     uint8_t out[65536] = {0};
 *     size_t written = 0;
 *     uint32_t answer = nelgvasti_canonical(message, length, out, sizeof out, &written, &position);
 *
 * DONE: `out` begins with the list, and is as it was after it. TOO_SMALL: `out_length` is what is needed. SHORT, ITEM, MEMORY: `out_length` is
 * as it was. At all but DONE `out` is as it was.
 */
uint32_t nelgvasti_canonical(const uint8_t *message, size_t message_length,
                             uint8_t *out, size_t out_capacity, size_t *out_length,
                             struct nelgvasti_item_position *position);

/* The same by formats, as nelgvasti_canonical_size_by, which gives the exact size of the list.
 *
 * DONE; TOO_SMALL; USAGE: it is another number; SHORT, ITEM, MEMORY. What is written at each is as for nelgvasti_canonical.
 */
uint32_t nelgvasti_canonical_by(uint32_t formats,
                                const uint8_t *message, size_t message_length,
                                uint8_t *out, size_t out_capacity, size_t *out_length,
                                struct nelgvasti_item_position *position);

/* Writes 1 to `same` if two messages carry the same records other than OPT, and else 0. Order, sections, duplicates, header, RCODE and questions
 * do not count, nor does ASCII case in names that are in lowercase in canonical form. Of records that are alike except for TTL the least
 * TTL counts. So messages without such records are the same.
 *
 *     uint32_t same = 0;
 *     uint32_t answer = nelgvasti_same(first, first_length, second, second_length, &same, &position);
 *     if (answer == NELGVASTI_DONE && same) puts("same");
 *
 * DONE; SHORT, ITEM, MEMORY: `same` is as it was. The position names the first message as 0, the second as 1.
 */
uint32_t nelgvasti_same(const uint8_t *first, size_t first_length,
                        const uint8_t *second, size_t second_length,
                        uint32_t *same, struct nelgvasti_item_position *position);

/* Writes the normal form of a message to `out`, and the number of its octets, at most 65,535, to `out_length`: one message for all messages with
 * the same records. Its id and flags are 0, and its answers are the records of the canonical list, with names that are compressed.
 *
 *     uint8_t out[65535] = {0};
 *     size_t written = 0;
 *     uint32_t answer = nelgvasti_normal(message, length, out, sizeof out, &written, &position);
 *
 * DONE: `out` begins with the normal form, and is as it was after it. TOO_SMALL: `out_length` is what is needed. TOO_LARGE, SHORT, ITEM, MEMORY:
 * `out_length` is as it was. At all but DONE `out` is as it was.
 */
uint32_t nelgvasti_normal(const uint8_t *message, size_t message_length,
                          uint8_t *out, size_t out_capacity, size_t *out_length,
                          struct nelgvasti_item_position *position);

/* Writes the digest of the zone of an apex (RFC 8976, the SIMPLE scheme with SHA-384), for the records of messages, as those of a zone
 * transfer. Whether they are the whole zone is not seen. The octets of the messages are given one after the other, and the length of each in
 * `lengths`; `messages_length` is their sum. The apex is a name in wire format.
 *
 *     const size_t lengths[2] = {first_length, second_length};
 *     const uint8_t apex[] = "\7example\3org";
 *     struct nelgvasti_digest digest = {0};
 *     uint32_t answer = nelgvasti_zone_digest(both, first_length + second_length, lengths, 2, apex, sizeof apex, &digest, &position);
 *
 * DONE; USAGE: the apex is no name, the lengths do not add up, or there are more than 4,294,967,295; NO_SOA, SHORT, ITEM, MEMORY. At all but DONE
 * `digest` is as it was. A number of octets past 64 bits is written as the greatest of 64 bits.
 */
uint32_t nelgvasti_zone_digest(const uint8_t *messages, size_t messages_length,
                               const size_t *lengths, size_t lengths_count,
                               const uint8_t *apex, size_t apex_length,
                               struct nelgvasti_digest *digest,
                               struct nelgvasti_item_position *position);

/* The same by formats, as nelgvasti_canonical_size_by. The digest under NELGVASTI_LISTED is the one to compare with a zone's ZONEMD.
 *
 *     uint32_t answer = nelgvasti_zone_digest_by(NELGVASTI_LISTED, both, first_length + second_length, lengths, 2, apex, sizeof apex, &digest, &position);
 *
 * DONE; USAGE: it is another number, or as for nelgvasti_zone_digest; NO_SOA, SHORT, ITEM, MEMORY. At all but DONE `digest` is as it was.
 */
uint32_t nelgvasti_zone_digest_by(uint32_t formats,
                                  const uint8_t *messages, size_t messages_length,
                                  const size_t *lengths, size_t lengths_count,
                                  const uint8_t *apex, size_t apex_length,
                                  struct nelgvasti_digest *digest,
                                  struct nelgvasti_item_position *position);

/* Writes the hash of a name in wire format for NSEC3 (RFC 5155 section 5). It takes no memory.
 *
 *     const uint8_t name[] = "\7example", salt[] = {0xaa, 0xbb, 0xcc, 0xdd};
 *     struct nelgvasti_hash hash = {{0}};
 *     uint32_t answer = nelgvasti_nsec3_hash(name, sizeof name, salt, sizeof salt, 12, &hash);
 *
 * A salt of no octets is (const uint8_t *)"" with length 0, and no null pointer:
 *
 *     answer = nelgvasti_nsec3_hash(name, sizeof name, (const uint8_t *)"", 0, 0, &hash);
 *
 * DONE; USAGE: the name is none, or the salt has more than 255 octets, and `hash` is as it was.
 */
uint32_t nelgvasti_nsec3_hash(const uint8_t *name, size_t name_length,
                              const uint8_t *salt, size_t salt_length,
                              uint16_t iterations, struct nelgvasti_hash *hash);

/* Writes the tag of a key by the data of its DNSKEY record (RFC 4034 appendix B). Data of fewer than four octets, which are those of no key, have a
 * tag too. It takes no memory.
 *
 *     uint16_t tag = 0;
 *     uint32_t answer = nelgvasti_key_tag(rdata, rdata_length, &tag);
 *
 * DONE; USAGE: the data are more than 65,535 octets, or the key is of algorithm 1 (RSA/MD5), whose tag is taken in another way (RFC 4034
 * appendix B.1), and `tag` is as it was.
 */
uint32_t nelgvasti_key_tag(const uint8_t *rdata, size_t rdata_length, uint16_t *tag);

/* Writes the canonical form of a name in wire format to `out`, which is its octets in lowercase (RFC 4034 section 6.2), and their number, from
 * 1 to 255, to `out_length`. It takes no memory.
 *
 *     uint8_t out[255] = {0};
 *     size_t written = 0;
 *     uint32_t answer = nelgvasti_canonical_name(name, name_length, out, sizeof out, &written);
 *
 * DONE: `out` begins with the name, and is as it was after it. TOO_SMALL: `out_length` is what is needed. USAGE: the name is none, and
 * `out_length` is as it was. At all but DONE `out` is as it was.
 */
uint32_t nelgvasti_canonical_name(const uint8_t *name, size_t name_length,
                                  uint8_t *out, size_t out_capacity, size_t *out_length);

/* Writes -1, 0 or 1 to `order` if the first name comes before the second in canonical order, is equal to it except for ASCII case, or comes after
 * it (RFC 4034 section 6.1). The names are in wire format. It takes no memory.
 *
 *     int32_t order = 0;
 *     uint32_t answer = nelgvasti_compare_names(first, first_length, second, second_length, &order);
 *
 * DONE; USAGE: one is no name, and `order` is as it was.
 */
uint32_t nelgvasti_compare_names(const uint8_t *first, size_t first_length,
                                 const uint8_t *second, size_t second_length,
                                 int32_t *order);

/* Writes -1, 0 or 1 to `order` if the first record comes before the second in canonical order, has the same canonical octets, or comes after
 * it: by owner, class, type, data and TTL (RFC 4034 section 6). A record is given as its octets, without pointers, as in a canonical list; case
 * and order need not be canonical. It takes no memory.
 *
 *     int32_t order = 0;
 *     uint32_t answer = nelgvasti_compare_records(first, first_length, second, second_length, &order);
 *
 * DONE; USAGE: one is no record, or is of type OPT, and `order` is as it was.
 */
uint32_t nelgvasti_compare_records(const uint8_t *first, size_t first_length,
                                   const uint8_t *second, size_t second_length,
                                   int32_t *order);

#ifdef __cplusplus
}
#endif
#endif

/*
 * The LGT class linker, proved in Rattle (crates/lgt_linker). Link with liblgt_linker.a: `tools/library` makes it in
 * target/staticlib, `make install PREFIX=..` installs it with this header and a pkg-config file.
 *
 * What it needs. x86-64 Linux; memcpy and memset, and nothing else: no allocation, no system call. Of the stack at most 126,360
 * bytes were measured (docs/PERFORMANCE.md): let LGT_STACK_BYTES be free at a call, beside the frames of the thread that calls.
 * A thread of musl's default size has LGT_STACK_BYTES in all, of which its own frames may take what the measured call leaves.
 * Frames are probed page by page, so a stack that is too short ends in its guard page and not in other memory.
 *
 * What every function answers. The returned number is 0 (LGT_ACCEPTED) if the call is accepted, else that of its refusal
 * (LGT_REFUSED_.. below; lgt_refusal_text says what to mend). The other answer words, where there are any, go into the array
 * `answer`, which is always written: the results if the call is accepted, zeros if it is refused. A refused call leaves all other
 * lent memory as it was. Any words and bytes of any length may be lent: no content makes a call undefined, and every call ends.
 *
 * What a caller owes. A slice is a pointer to its first element and the number of its elements, all of which are there and have
 * been written; its pointer is aligned for the element. With length 0 the pointer may be anything, NULL too. `answer` is never
 * NULL. What a call may write (every pointer without const) overlaps nothing else that is lent to the same call, and nobody
 * else touches the lent memory while the call runs. What is const may overlap what is const. Nothing is kept between
 * calls, so calls on different memory may run at once in several threads.
 */
#ifndef LGT_LINKER_H
#define LGT_LINKER_H

#include <stddef.h>
#include <stdint.h>

/* The version of this library: the file VERSION, which a test holds this line to. */
#define LGT_LINKER_VERSION "0.4.0"

/* A compiler that can warns where an answer is not looked at. */
#if defined(__GNUC__) || defined(__clang__)
#define LGT_MUST_USE __attribute__((warn_unused_result))
#else
#define LGT_MUST_USE
#endif

/*
 * ---- Refusals, in the order in which they are judged. Later versions have more: take an unknown number for a refusal.
 */
#define LGT_ACCEPTED 0u

/* bytes that are no whole blocks or too many, or fewer than LGT_BLOCK_WORDS words lent a block */
#define LGT_REFUSED_SHEET_SIZE 1u
/* a block's check */
#define LGT_REFUSED_BLOCK_CHECK 2u
/* a count above its limit, content that does not fit its blocks or its words, an unclean end, a table place in a sheet, or static
   words of a built or array class in it; of a filling of the list of numbers, a link and an ask also a list that is too short */
#define LGT_REFUSED_SHEET_COUNTS 3u
/* a record; of a class file a name, a descriptor or a method's flags */
#define LGT_REFUSED_RECORD 4u
/* a descriptor */
#define LGT_REFUSED_DESCRIPTOR 5u
/* a class number: none of the set, linked already or not yet, its parent unlinked, or a wrong array class; of a count of missing slots a class
   that is not linked */
#define LGT_REFUSED_CLASS 6u
/* the area: empty, a wrong next free place, a table or a node outside, a list of more than LGT_MOST_NODES nodes */
#define LGT_REFUSED_AREA 7u
/* a class of kind 3 whose chain has an ABI entry, an interface or another kind, or a class of another kind with one of kind 3 above it */
#define LGT_REFUSED_PACKAGES 26u
/* a generated class's own words exceed its total */
#define LGT_REFUSED_GENERATED_WORDS 8u
/* a generated class's indices, neither all relative nor all absolute */
#define LGT_REFUSED_GENERATED_INDICES 9u
/* more than LGT_MOST_INSTANCE_WORDS instance or runtime words */
#define LGT_REFUSED_INSTANCE_WORDS 10u
/* a fixed index that differs from the inherited one */
#define LGT_REFUSED_MOVED_SLOT 11u
/* a fixed slot that holds another signature */
#define LGT_REFUSED_TAKEN_SLOT 12u
/* more than LGT_MOST_SLOTS slots */
#define LGT_REFUSED_SLOT_COUNT 13u
/* an interface method without an implementation */
#define LGT_REFUSED_NO_IMPLEMENTATION 16u
/* more than LGT_MOST_METHODS methods, LGT_MOST_FIELDS fields or LGT_MOST_TEXT_BYTES text bytes; of a class file also lists that are too
 * short, or a number of targets that is not that of the methods */
#define LGT_REFUSED_SECTION_FULL 14u
/* too few stub words, free words of the area, class words, words of the list of missing slots, or words of a renumbering's list */
#define LGT_REFUSED_NO_ROOM 15u
/* a set that cannot be stored: a table place or slot count that is not 0, static words of a built or array class, or a byte that is
   not 0 after the text in its last word */
#define LGT_REFUSED_NOT_STORABLE 17u
/* fewer bytes lent than the blocks of the sheet take */
#define LGT_REFUSED_SHEET_ROOM 18u
/* a class that is its own ancestor; it is judged between 4 and 15 */
#define LGT_REFUSED_RING 19u
/* eight bytes that do not begin a class file of major version 45 to 48; 20 to 22 are judged before 4 */
#define LGT_REFUSED_FILE_VERSION 20u
/* a class file that ends early, or goes on after its last attribute */
#define LGT_REFUSED_FILE_BYTES 21u
/* a constant pool's tag, or a reference to a class, a name or a descriptor that the pool does not have */
#define LGT_REFUSED_CONSTANT_POOL 22u
/* a class sheet that the old form cannot hold: static words of a generated class other than its static field widths; it is judged
   between 5 and 18 */
#define LGT_REFUSED_LOST_STATICS 23u
/* fewer bytes of a reference bitmap than its instance words take */
#define LGT_REFUSED_BITMAP_BYTES 24u
/* a list lent for reference words that is shorter than their count */
#define LGT_REFUSED_REFERENCE_LIST 25u

/*
 * ---- Memory to lend
 */

/* Words that hold the blocks of every class sheet, and every set after any links. */
#define LGT_CLASS_WORDS 11684

/* Bytes that hold every class sheet: 92 blocks. */
#define LGT_CLASS_BYTES 47104

/* Words that hold the blocks of every ABI sheet. */
#define LGT_ABI_WORDS 6477

/* The most slots of a table: as many stub words are enough for every call. */
#define LGT_MOST_SLOTS 1024

/* Words that a table of so many slots takes in the area: the class number, the slots, the head of its list of nodes. */
#define LGT_TABLE_WORDS(slots) ((slots) + 2)

/* A node of that list: the next node's place, the interface number, the slots. */
#define LGT_NODE_WORDS(slots) ((slots) + 2)

/* Words of the list of missing slots: of each class its count, then a bit for each of LGT_MOST_SLOTS slots, and enough for every set. */
#define LGT_MISSING_CLASS_WORDS 33
#define LGT_MISSING_WORDS 2112

/* Words of the list of numbers: one for each of LGT_MOST_METHODS methods, then one for each of LGT_MOST_ABI_SLOTS ABI slots. */
#define LGT_NUMBERS 1024

/* Stack for a call, beside the frames of the thread that calls; the gate holds every call to it. */
#define LGT_STACK_BYTES 131072

/* Words that hold the fields, the methods and the text of every class file that is read. */
#define LGT_FILE_FIELD_WORDS 3072
#define LGT_FILE_METHOD_WORDS 3072
#define LGT_FILE_TEXT_WORDS 2048

/*
 * ---- Limits
 */
#define LGT_MOST_CLASSES 64
#define LGT_MOST_METHODS 512
#define LGT_MOST_FIELDS 512
#define LGT_MOST_INTERFACE_WORDS 256
#define LGT_MOST_COMPILER_WORDS 2048
#define LGT_MOST_TEXT_BYTES 8192
#define LGT_MOST_NAME_BYTES 255
#define LGT_MOST_INSTANCE_WORDS 65535
#define LGT_MOST_NODES 64
#define LGT_MOST_ABI_CLASSES 64
#define LGT_MOST_ABI_SLOTS 512
#define LGT_MOST_ABI_FIELDS 256
#define LGT_MOST_ABI_INDEX 1023
#define LGT_MOST_ABI_FIELD_INDEX 4095
#define LGT_MOST_ABI_INSTANCE_WORDS 4096

/*
 * ---- Blocks. A block's words stand lowest byte first; the last is the sum of the others and the block's number, counted from 1.
 */
#define LGT_BLOCK_BYTES 512
#define LGT_BLOCK_WORDS 127
#define LGT_MOST_CLASS_BLOCKS 92
#define LGT_MOST_ABI_BLOCKS 51

/*
 * ---- The class words. Six counts, at the indices LGT_SET_..; then the sections in the same order, one after the other: classes,
 * methods, fields, interface words, compiler words, text (four bytes a word, lowest first). Classes are numbered from 1, so
 * the record of class n begins at LGT_SET_COUNTS + LGT_CLASS_RECORD * (n - 1); all else is numbered from 0.
 */
#define LGT_SET_CLASSES 0
#define LGT_SET_METHODS 1
#define LGT_SET_FIELDS 2
#define LGT_SET_INTERFACE_WORDS 3
#define LGT_SET_COMPILER_WORDS 4
#define LGT_SET_TEXT_BYTES 5
#define LGT_SET_COUNTS 6

/*
 * The words of a class record, 18 of them. Those marked * are written by a link of the class, + unless it is generated; of the others
 * only the lists' first and count change, where a list grows.
 *
 *   word    holds                                     limits, before a link
 *    0, 1   name: start in the text, bytes            1 to 255 bytes
 *    2      parent: a class number, 0 for none        below the class's own number
 *    3      access flags                              at most 65,535
 *    4      kind (LGT_KIND_..)                        at most 3
 *    5, 6   methods: first, count                     inside their section, in no other class's list
 *    7, 8   fields: first, count                      inside their section, in no other class's list
 *    9, 10  interface words: first, count             inside their section
 *   11      link state                                at most 65,535
 *   12  +   instance words                            at most 65,535
 *   13, 14  compiler table: 0 for none, else its first compiler word counted from 1; its slots, at most 1,024
 *   15  *   table place, 0 while it is not linked     0 in a sheet
 *   16  *   slot count                                0 in a sheet
 *   17  +   static words: those of a built class's own static fields, J and D two, others one; 0 of an array class
 *                                                     0 in a sheet; a generated class brings any
 *
 * Sheets of 17-word records, made before there were static words, are another form, and cannot be told from these: no byte marks the
 * form. Mostly a reading refuses them by 3 or 4, but some are accepted and say something else. Keep the two apart;
 * lgt_widen_class_sheet makes an old sheet one of these.
 */
#define LGT_CLASS_NAME_START 0
#define LGT_CLASS_NAME_LENGTH 1
#define LGT_CLASS_PARENT 2
#define LGT_CLASS_FLAGS 3
#define LGT_CLASS_KIND 4
#define LGT_CLASS_FIRST_METHOD 5
#define LGT_CLASS_METHOD_COUNT 6
#define LGT_CLASS_FIRST_FIELD 7
#define LGT_CLASS_FIELD_COUNT 8
#define LGT_CLASS_FIRST_INTERFACE 9
#define LGT_CLASS_INTERFACE_COUNT 10
#define LGT_CLASS_LINK_STATE 11
#define LGT_CLASS_INSTANCE_WORDS 12
#define LGT_CLASS_COMPILER_TABLE 13
#define LGT_CLASS_COMPILER_SLOTS 14
#define LGT_CLASS_TABLE_PLACE 15
#define LGT_CLASS_SLOT_COUNT 16
#define LGT_CLASS_STATIC_WORDS 17
#define LGT_CLASS_RECORD 18

/* Kinds, and the flags and the link state that linking looks at. */
#define LGT_KIND_BUILT 0
#define LGT_KIND_GENERATED 1
#define LGT_KIND_ARRAY 2
#define LGT_KIND_PACKAGED 3 /* a built class, not an interface, whose methods override by packages (JVM Specification, 5.4.5) */
#define LGT_FLAG_PUBLIC 0x0001
#define LGT_FLAG_PRIVATE 0x0002
#define LGT_FLAG_PROTECTED 0x0004
#define LGT_FLAG_STATIC 0x0008
#define LGT_FLAG_INTERFACE 0x0200
#define LGT_FLAG_ABSTRACT 0x0400
#define LGT_STATE_LINKED_BY_COMPILER 3

/* The words of a method record. */
#define LGT_METHOD_NAME_START 0
#define LGT_METHOD_NAME_LENGTH 1
#define LGT_METHOD_DESCRIPTOR_START 2
#define LGT_METHOD_DESCRIPTOR_LENGTH 3
#define LGT_METHOD_FLAGS 4
#define LGT_METHOD_TARGET 5
#define LGT_METHOD_RECORD 6

/* The words of a field record. */
#define LGT_FIELD_NAME_START 0
#define LGT_FIELD_NAME_LENGTH 1
#define LGT_FIELD_DESCRIPTOR_START 2
#define LGT_FIELD_DESCRIPTOR_LENGTH 3
#define LGT_FIELD_FLAGS 4
#define LGT_FIELD_WORD_INDEX 5
#define LGT_FIELD_RECORD 6

/*
 * ---- The ABI words. Four counts, at the indices LGT_ABI_SET_..; then the sections: classes, slots, fields, text.
 */
#define LGT_ABI_SET_CLASSES 0
#define LGT_ABI_SET_SLOTS 1
#define LGT_ABI_SET_FIELDS 2
#define LGT_ABI_SET_TEXT_BYTES 3
#define LGT_ABI_SET_COUNTS 4

/* The words of an ABI class's record. */
#define LGT_ABI_CLASS_NAME_START 0
#define LGT_ABI_CLASS_NAME_LENGTH 1
#define LGT_ABI_CLASS_TABLE_SIZE_PLUS_1 2 /* 0: none is given */
#define LGT_ABI_CLASS_INSTANCE_WORDS_PLUS_1 3
#define LGT_ABI_CLASS_FIRST_SLOT 4
#define LGT_ABI_CLASS_SLOT_COUNT 5
#define LGT_ABI_CLASS_FIRST_FIELD 6
#define LGT_ABI_CLASS_FIELD_COUNT 7
#define LGT_ABI_CLASS_RECORD 8

/* The words of a slot row, and of a field row. */
#define LGT_ABI_ROW_NAME_START 0
#define LGT_ABI_ROW_NAME_LENGTH 1
#define LGT_ABI_ROW_DESCRIPTOR_START 2
#define LGT_ABI_ROW_DESCRIPTOR_LENGTH 3
#define LGT_ABI_ROW_INDEX 4
#define LGT_ABI_ROW_RECORD 5

/*
 * ---- The six words that a class file answers.
 */
#define LGT_FILE_NAME_LENGTH 0
#define LGT_FILE_PARENT_LENGTH 1 /* 0 for no parent */
#define LGT_FILE_FLAGS 2
#define LGT_FILE_FIELDS 3
#define LGT_FILE_METHODS 4
#define LGT_FILE_TEXT_BYTES 5
#define LGT_FILE_ANSWER 6

#ifdef __cplusplus
extern "C" {
#endif

/* What to mend after a refusal: the sentence that docs/REFUSALS.md has for the number. A test holds them equal. */
static inline const char *lgt_refusal_text(uint32_t refusal)
{
    switch (refusal) {
    case LGT_ACCEPTED:
        return "Nothing: the call is accepted.";
    case LGT_REFUSED_SHEET_SIZE:
        return "Fetch the file again whole: a sheet is at least one block of 512 bytes, has no part of a block, and at "
               "most 92 blocks (class sheet) or 51 (ABI sheet). A caller lends at least 127 words for each block.";
    case LGT_REFUSED_BLOCK_CHECK:
        return "The file was damaged or changed by hand, as a block's check word does not fit its content: fetch it "
               "again, or make it again from its text form.";
    case LGT_REFUSED_SHEET_COUNTS:
        return "Keep the counts within their limits and the file as short as its content allows, with zeros after the "
               "content, and store only an unlinked set: every table place and slot count 0, and the static words of "
               "every built or array class. A link, an interface table or a write asks, of each sheet, only that its "
               "counts keep their limits and that the lent words hold all of its content: lend as many words as the "
               "counts and their sections take. A filling of the list of numbers asks the same of both sheets. A filling, a "
               "link and an interface table ask for a list of 1,024 words. A renumbering asks the same of the class sheet, "
               "and every table place and slot count 0, and those static words.";
    case LGT_REFUSED_RECORD:
        return "Mend the record named: lists and text parts lie inside their sections, two classes share no method or "
               "field record, names and descriptors have 1 to 255 bytes from 0x21 to 0x7E, a parent comes before its "
               "child (`tools/sheet order` puts parents first), an interface is a class of the sheet, no two classes "
               "have one name, and each flag, kind, size and index keeps its limit. A renumbering asks of all this only "
               "that each parent number and each interface word is that of a class of the sheet (a parent may be 0).";
    case LGT_REFUSED_DESCRIPTOR:
        return "Write the descriptor as the JVM Specification has it: a field's is one type such as `I`, `[J` or "
               "`Ljava/lang/String;`; a method's is its parameters in parentheses and then its result, such as `(IJ)V`. A "
               "method has at most 255 words of arguments, two for each J and D and one for the receiver unless it is "
               "static; a slot of the ABI sheet counts as an instance method.";
    case LGT_REFUSED_CLASS:
        return "Ask for a class that is in the set, from 1 to the number of classes, and not yet linked; link its "
               "parent first. An array class has no methods or fields and the parent `java/lang/Object`. For an "
               "interface table, link both classes first; for a count of missing slots, the class.";
    case LGT_REFUSED_AREA:
        return "Lend the area as the last call left it, or a fresh one: word 0 holds the next free place (1 in a fresh "
               "area), which is at most the area's length; no linked table and no node of the class's list reaches past "
               "it, and the list has at most 64 nodes.";
    case LGT_REFUSED_PACKAGES:
        return "A class of kind 3 is linked by the packages of the JVM Specification, and so must be all its ancestors: "
               "give the whole chain kind 3, with no interface and no ABI entry among them, or none of it.";
    case LGT_REFUSED_GENERATED_WORDS:
        return "A generated class says too few instance words: raise its total to at least the words that its own "
               "instance fields take.";
    case LGT_REFUSED_GENERATED_INDICES:
        return "A generated class's instance fields must all count from 0 (relative) or all from the end of the "
               "inherited words (absolute): mend the field indices that do not fit the others.";
    case LGT_REFUSED_INSTANCE_WORDS:
        return "The class would have more than 65,535 instance words, or its chain more than 65,535 runtime words: take "
               "fields out of the class or its ancestors.";
    case LGT_REFUSED_MOVED_SLOT:
        return "The ABI sheet fixes another index for this method than the one that the class inherits, or the class "
               "inherits it behind the fixed slots, where another signature holds the index: give both the same index, "
               "or drop the ABI entry.";
    case LGT_REFUSED_TAKEN_SLOT:
        return "The ABI sheet fixes for this method a slot that another method already holds: give one of the two "
               "another index.";
    case LGT_REFUSED_SLOT_COUNT:
        return "The table would have more than 1,024 slots: take methods out of the class or its ancestors, or lower "
               "the ABI's indices or table size.";
    case LGT_REFUSED_SECTION_FULL:
        return "The methods, fields or names that linking adds, or that a class file has, do not fit: a set holds at most "
               "512 methods, 512 fields and 8,192 text bytes. Take some out of the set, the ABI sheet or the class. For a "
               "class file lend also 6 words a field, 6 words a method, a word for each 4 text bytes, and exactly one target "
               "for each method, as `lgt_class_file_head` counts them.";
    case LGT_REFUSED_NO_ROOM:
        return "Lend more memory: a stub word for each slot of the table, free words in the area for the table and two "
               "more, class words for the sections that grow, and 33 words of the list of missing slots for each class of "
               "the set; for a renumbering, a list word for each class.";
    case LGT_REFUSED_NO_IMPLEMENTATION:
        return "The class has no method that implements one of the interface's methods: declare it, not static and not "
               "private, in the class or an ancestor.";
    case LGT_REFUSED_NOT_STORABLE:
        return "Store the set as it was before its first link, with every table place and slot count 0, and the static "
               "words of every built or array class, and with zeros in the bytes that follow the text in its last word.";
    case LGT_REFUSED_SHEET_ROOM:
        return "Lend 512 bytes for each block of the sheet that is written, 127 words of content a block: 47,104 "
               "bytes are enough for every sheet. One of 17-word class records can take a block more with 18 words "
               "a record.";
    case LGT_REFUSED_RING:
        return "A class is its own ancestor: mend the parent numbers of the classes in the ring, which `tools/sheet "
               "order` names, so that each chain of parents ends at a class without one.";
    case LGT_REFUSED_FILE_VERSION:
        return "This is no class file, or not one of the versions that are read: it begins with the bytes CA FE BA BE, "
               "and its major version is 45 to 48. Compile for 1.1 to 1.4.";
    case LGT_REFUSED_FILE_BYTES:
        return "The class file is cut short, or something follows its last attribute: fetch it again whole.";
    case LGT_REFUSED_CONSTANT_POOL:
        return "The class file's constant pool does not hold what the class uses: a tag is none of these versions', or "
               "the class, its parent, or a member's name or descriptor refers to no constant of its kind. Compile it again.";
    case LGT_REFUSED_LOST_STATICS:
        return "The old form cannot hold this class's static words: a generated class of a sheet with 17-word class "
               "records has the sum of its static field widths, J and D two words and others one. Give it that sum, "
               "or keep the sheet in the new form.";
    case LGT_REFUSED_BITMAP_BYTES:
        return "Lend the whole bitmap, a byte for each 8 instance words.";
    case LGT_REFUSED_REFERENCE_LIST:
        return "Lend a list as long as the count, which `lgt_reference_count` tells.";
    default:
        return "This number is not known to the header's version, " LGT_LINKER_VERSION ": see docs/REFUSALS.md of the library's.";
    }
}

/*
 * Reads a class sheet, blocks of 512 bytes, into words.
 * Answers: answer[0], the number of words filled, 127 a block.
 * Leaves: those words filled from the front, the rest of `words` as it was.
 * Refuses by 1 to 5.
 */
LGT_MUST_USE
uint32_t lgt_read_class_sheet(const uint8_t *bytes, size_t bytes_len, uint32_t *words, size_t words_len,
                              uint32_t answer[1]);

/*
 * Reads an ABI sheet likewise.
 */
LGT_MUST_USE
uint32_t lgt_read_abi_sheet(const uint8_t *bytes, size_t bytes_len, uint32_t *words, size_t words_len,
                            uint32_t answer[1]);

/*
 * Writes an unlinked set, as read or as the caller has corrected it, as the blocks of a class sheet: what lgt_read_class_sheet
 * reads back as the same content, the counts and their sections. Of a set as read from a sheet it writes that sheet's bytes.
 * Answers: answer[0], the number of blocks, as few as hold the content: 1 to LGT_MOST_CLASS_BLOCKS.
 * Leaves: all LGT_BLOCK_BYTES bytes of each of those blocks written, from the front of `bytes`, every byte after them as it
 * was. Words after the set's content are not looked at.
 * Refuses by 3 to 5, 17, 18. LGT_CLASS_BYTES bytes are never refused by 18.
 */
LGT_MUST_USE
uint32_t lgt_write_class_sheet(const uint32_t *set, size_t set_len, uint8_t *bytes, size_t bytes_len, uint32_t answer[1]);

/*
 * Makes a class sheet of the old form, with 17-word class records, one of the new form, with 18: the blocks that lgt_read_class_sheet
 * reads and lgt_write_class_sheet writes. A generated class gets the sum of its static field widths (J and D two, others one) as its
 * static words, every other class 0, as a link counts them. `bytes` is only read.
 * The form of a sheet cannot be seen from its bytes: the caller says by the function that it calls which form `bytes` has. A sheet
 * converted twice can be accepted and say something else, so keep the old file and write to another.
 * Answers: answer[0], the number of blocks, as few as hold the content: as many as `bytes` has or one more.
 * Leaves: all LGT_BLOCK_BYTES bytes of each of those blocks written, from the front of `out`, every byte after them as it was.
 * lgt_narrow_class_sheet of just those blocks gives the bytes of the old sheet back.
 * Refuses by 1 to 5, as a reading of the old form does, and 18. LGT_CLASS_BYTES bytes are never refused by 18. No words are lent, so
 * 1 is of the bytes alone. An old sheet whose classes come in any order, a child before its parent, is refused by 4: there is no
 * loose conversion.
 */
LGT_MUST_USE
uint32_t lgt_widen_class_sheet(const uint8_t *bytes, size_t bytes_len, uint8_t *out, size_t out_len, uint32_t answer[1]);

/*
 * Makes a class sheet of the new form one of the old, for a terminal that reads no other; the static words are dropped.
 * Answers and leaves as lgt_widen_class_sheet, which gives the bytes of the new sheet back: the blocks are as many as `bytes` has or
 * one fewer.
 * Refuses by 1 to 5, as lgt_read_class_sheet does, by 23 where a generated class has other static words than it would get on the way
 * forward, and by 18. LGT_CLASS_BYTES bytes are never refused by 18.
 */
LGT_MUST_USE
uint32_t lgt_narrow_class_sheet(const uint8_t *bytes, size_t bytes_len, uint8_t *out, size_t out_len, uint32_t answer[1]);

/*
 * Reads a class sheet whose classes come in any order, a child before its parent, as lgt_read_class_sheet does, but judges
 * neither records nor descriptors. Renumber the classes before the first link, which judges both.
 * Answers and leaves as lgt_read_class_sheet.
 * Refuses by 1 to 3.
 */
LGT_MUST_USE
uint32_t lgt_read_unordered_sheet(const uint8_t *bytes, size_t bytes_len, uint32_t *words, size_t words_len,
                                  uint32_t answer[1]);

/*
 * Renumbers the classes of an unlinked set so that parents come first: of the classes without a parent, or whose parent is
 * placed, the one of the smallest old number goes next. A set in that order stays as it is.
 * Answers: answer[0], the number of classes.
 * Leaves in `order`: the old number of each class, in new order; the words after them as they were. LGT_MOST_CLASSES words are
 * enough for every set.
 * Leaves in the set: the class records in new order, each parent number and each interface word the new one; every other word
 * as it was. A link judges records and descriptors (4 and 5) afterwards.
 * Refuses by 3, 4, 19, 15.
 */
LGT_MUST_USE
uint32_t lgt_renumber_classes(uint32_t *set, size_t set_len, uint32_t *order, size_t order_len, uint32_t answer[1]);

/*
 * Fills the list of numbers, by which links and asks tell signatures (name and descriptor) apart: word m is of method m, word 512 + s of
 * ABI slot s, both from 0. Each holds the place in the list of the first record whose name and whose descriptor are the same, each part for
 * itself, in whichever sheet it stands; so two records have one number exactly if both parts are the same. A word without a record holds 0,
 * which is also the number of method 0.
 * Fill the list after reading, and again after the set was changed by anything but a link. Set and ABI words are only read.
 * Answers nothing but the returned number.
 * Leaves: the first LGT_NUMBERS words of the list written, whatever they held, and every word after them as it was.
 * Refuses by 3 to 5 as a link; by 3 also a list of fewer than LGT_NUMBERS words.
 */
LGT_MUST_USE
uint32_t lgt_number_signatures(const uint32_t *set, size_t set_len, const uint32_t *abi, size_t abi_len, uint32_t *numbers,
                               size_t numbers_len);

/*
 * Links a class. `set` is the class words as read, or as earlier links left them; `abi` the ABI words. `numbers` is the list of numbers,
 * filled from this very set and these ABI words, and as the last link left it; nobody else writes it. `area` is as the last call left it,
 * or fresh: word 0 is the next free place, 1 in a fresh area. `stubs` are the words for slots without a target.
 * `missing` is the list of missing slots, LGT_MISSING_CLASS_WORDS words for each class of the set or more: lend one list, which nobody
 * else writes, from the first link on; it may hold anything before.
 * Classes count from 1, and a parent is linked before its child. The chain of a class, itself included, is of kind 3
 * as a whole, without interfaces and ABI entries, or has no class of kind 3.
 * Answers: answer[0], the place of the class's table in the area; answer[1], its slots.
 * Leaves in the area, from that place on: the class number, the slots, a zero list head; word 0 moves past them.
 * Leaves in the set: the class's table place and slot count; unless it is generated, its instance words and static words, the
 * latter where the indices of its own static fields end and 0 for an array class; the indices of its fields. A built class gets the ABI's fields that it lacks, a generated one the methods of its compiler table that it
 * lacks: its list is then copied to the end of its section, and the sections behind move up. The class's link state stays.
 * Leaves in `numbers`, where methods are added: at the place of each copied method its number, at that of each added one the number of the
 * signature that it took; all other words stay, and of a link that adds none all words.
 * Leaves in `missing`, from word LGT_MISSING_CLASS_WORDS * (class_number - 1) on: the number of slots that took a stub word or are copies
 * of slots that the parent's count includes, then a bit for each slot, set if it is counted, the first slot's lowest in the first word,
 * and zeros. All other words of that list stay.
 * Refuses by 3 to 7, 26, 8 to 15.
 */
LGT_MUST_USE
uint32_t lgt_link(uint32_t *set, size_t set_len, const uint32_t *abi, size_t abi_len, uint32_t *numbers,
                  size_t numbers_len, uint32_t class_number, uint32_t *area, size_t area_len, const uint32_t *stubs,
                  size_t stubs_len, uint32_t *missing, size_t missing_len, uint32_t answer[2]);

/*
 * How many slots of a linked class hold no real method: the count that its link left in the list of missing slots. Set and ABI words are
 * lent as to a link, and the list as the last link left it; all are only read, and neither an area nor the list of numbers is asked for.
 * Answers: answer[0], the number, which is the word of the list, whatever it is. Leaves nothing else written.
 * Refuses by 3 to 5 as a link, by 6 a class that is not linked, by 15 a list of fewer than LGT_MISSING_CLASS_WORDS words for each class.
 */
LGT_MUST_USE
uint32_t lgt_missing_slots(const uint32_t *set, size_t set_len, const uint32_t *abi, size_t abi_len, const uint32_t *missing,
                           size_t missing_len, uint32_t class_number, uint32_t answer[1]);

/*
 * Asks for a class's table of an interface; both are linked classes. The rest is lent as to a link, without the list of missing slots; the
 * list of numbers is only read.
 * Answers: answer[0], the place after the node's link word, where the interface number and then the slots stand, as many as
 * the interface's table has; answer[1], how many nodes of the class's list were read on the way: at most 64, and at most as many as
 * there are classes where set, area and ABI words are kept as below (the stubs may differ).
 * Leaves: nothing changed if the class's list has a node of the interface. Else, from the next free place on, a node: the
 * old list head, the interface number, the slots; the class's list head and word 0 of the area change. The set is only read.
 * Keeps: a table once answered stays at its place, and stays right: after any links and asks, accepted or refused, its slots are those
 * that an ask would build at that moment. So a caller may keep the place, as long as all calls began with an unlinked set and a list of
 * numbers filled from it, each gets set, numbers and area as the last one left them, and all lend the same ABI words and the same stubs;
 * a link's list of missing slots may be any.
 * Refuses by 3 to 7, 16, 15.
 */
LGT_MUST_USE
uint32_t lgt_interface_dispatch_table(const uint32_t *set, size_t set_len, const uint32_t *abi, size_t abi_len,
                                      const uint32_t *numbers, size_t numbers_len, uint32_t class_number,
                                      uint32_t interface_number, uint32_t *area, size_t area_len, const uint32_t *stubs,
                                      size_t stubs_len, uint32_t answer[2]);

/*
 * Counts the words of a method's arguments by its descriptor. Of the flags only 0x0008, static, counts: without it the
 * receiver takes a word.
 * Answers: answer[0], the words, at most 255. Leaves nothing else written.
 * Refuses by 5, also above 255 words.
 */
LGT_MUST_USE
uint32_t lgt_argument_words(const uint8_t *descriptor, size_t descriptor_len, uint32_t flags, uint64_t answer[1]);

/*
 * Compares two names, or any bytes, as the library compares all names: lengths first, then names of one length from the last
 * byte back, up to the first pair of bytes that differs.
 * Answers: answer[0], 1 if they are the same bytes, else 0 (the two numbers are this library's choice); answer[1], how many
 * pairs of bytes were read: 0 for unequal lengths, all for the same names, else the length minus the last differing place,
 * counted from 0. Leaves nothing else written.
 * Refuses nothing: it returns 0.
 */
uint32_t lgt_compare_names(const uint8_t *a, size_t a_len, const uint8_t *b, size_t b_len, uint64_t answer[2]);

/*
 * Lists the instance words that hold references, by a class's instance reference bitmap: word i, of `words` instance words
 * counted from 0, is marked if byte i / 8 has the bit 0x80 shifted right by i modulo 8. Bits beyond the words are ignored.
 * Answers: answer[0], how many words are marked. Leaves: their numbers at the front of `list`, in rising order, the rest of it
 * as it was.
 * Refuses by 24, 25. A list of `words` words is never refused by 25.
 */
LGT_MUST_USE
uint32_t lgt_reference_words(const uint8_t *bitmap, size_t bitmap_len, uint32_t words, uint32_t *list, size_t list_len,
                             uint32_t answer[1]);

/*
 * Counts the same words without a list: as many words hold every list of them.
 * Answers: answer[0], how many words are marked. Leaves nothing else written.
 * Refuses by 24.
 */
LGT_MUST_USE
uint32_t lgt_reference_count(const uint8_t *bitmap, size_t bitmap_len, uint32_t words, uint32_t answer[1]);

/*
 * Reads the members of a class file (JVM Specification, chapter 4) of major version 45 to 48, in the form of a set's records:
 * the class, its parent, its fields and methods in the order of the file. Attributes are passed over, interfaces not told.
 * `targets` has one word for each method. lgt_class_file_head says how many there are.
 * Answers: the six words LGT_FILE_..: the lengths of the class's and the parent's name, the access flags, how many fields,
 * methods and text bytes.
 * Leaves in `fields` and `methods`: a record of 6 words for each, from the front; a field's word index is 0, a method's target
 * the word of `targets`. In `text`: the class's name, the parent's, then each member's name and descriptor, fields first, four
 * bytes a word, lowest first, and zeros after them in the last word. All words after these as they were.
 * Refuses by 20, then by 21 or 22, whichever is met first from the front, then by 4, 5, 14. Lists of LGT_FILE_FIELD_WORDS,
 * LGT_FILE_METHOD_WORDS and LGT_FILE_TEXT_WORDS words are never too short.
 */
LGT_MUST_USE
uint32_t lgt_read_class_file(const uint8_t *bytes, size_t bytes_len, const uint32_t *targets, size_t targets_len,
                             uint32_t *fields, size_t fields_len, uint32_t *methods, size_t methods_len, uint32_t *text,
                             size_t text_len, uint32_t answer[6]);

/*
 * Answers the same six words without lists. Leaves nothing else written.
 * Refuses by 20 to 22, 4, 5, and by 14 where a sheet cannot hold the class.
 */
LGT_MUST_USE
uint32_t lgt_class_file_head(const uint8_t *bytes, size_t bytes_len, uint32_t answer[6]);

#ifdef __cplusplus
}
#endif

#endif

/* naga_check: a validator of shader modules whose verdicts are proved. C interface, version 3.
 *
 * What NAGA_CHECK_OK means: every rule of the module's handles, types, global expressions, constants and overrides
 * holds; after naga_check_functions also every rule of the expressions of functions and entry points; and after
 * naga_check_declarations besides these every rule of the module's variables, of the local variables, arguments and
 * results of functions, and of the inputs and outputs of entry points. It says nothing of statements, nor of which
 * variables an entry point uses and whether their bindings collide: these are not validated yet.
 *
 * Options say how a module is validated and how much a call may take; they are the host's, and what comes in the words
 * or the text of a stranger can't loosen them. A null pointer in their place is NAGA_CHECK_OPTIONS_DEFAULT.
 *
 * There is no initialisation and no global state: calls may run on any number of threads at once, as long as they share
 * no buffer and no open module that one of them writes. Nothing is kept between calls, and nothing is handed out that
 * has to be freed, except a module that naga_check_open opened. The library never ends the process and never prints; if
 * memory is refused a call returns NAGA_CHECK_MEMORY.
 *
 * The library calls malloc, realloc, free, memmove, memcpy and memset of the C library, and nothing else of
 * the system. It is for x86-64 Linux.
 *
 * What a caller owes (nothing checks it):
 *   - a pointer is aligned for its type, and points to as many elements as its count says, of at most PTRDIFF_MAX bytes
 *     in all; it may be null if the count is 0, and so may the one to an outcome or counts that nobody wants;
 *   - buffers that a call writes overlap no other buffer of that call;
 *   - 256 KiB of stack; naga_check_slots calls itself as deep as structs are nested in a type, and needs more
 *     for types that are nested deeper than a thousand structs.
 * Any bytes and any words may be given: what can't be read is refused. docs/WORDS.md describes the words.
 *
 * The functions that the library exports end in _with, and take no null pointer at all, also where a count is 0. Those
 * without _with are in this header: they put something in the place of each null pointer.
 */
#ifndef NAGA_CHECK_H
#define NAGA_CHECK_H

#include <stddef.h>
#include <stdint.h>

#include "naga_check_errors.h"
#include "naga_check_flags.h"
#include "naga_check_words.h"

#ifdef __cplusplus
extern "C" {
#endif

#define NAGA_CHECK_ABI_VERSION 3u

/* A word that stands for nothing: no index, no name, no width. */
#define NAGA_CHECK_NONE 0xFFFFFFFFu

/* The most operands of an item. */
#define NAGA_CHECK_MOST_OPERANDS 0xFFFFFFu

/* The first word of an item: its opcode, and how many operands follow, a constant. One above NAGA_CHECK_MOST_OPERANDS
 * is an error at compile time. */
#define NAGA_CHECK_ITEM(opcode, count) \
  ((uint32_t)(count) << (8 + NAGA_CHECK_ZERO_IF_((uint64_t)(count) <= NAGA_CHECK_MOST_OPERANDS)) | (uint32_t)(opcode))

/* The same of a count that is known at run time only, which is computed twice. With a count above
 * NAGA_CHECK_MOST_OPERANDS it is a word with which no item begins, so that a call returns NAGA_CHECK_UNREADABLE. */
#define NAGA_CHECK_ITEM_OF(opcode, count) \
  ((uint64_t)(count) >> 24 ? NAGA_CHECK_NONE : (uint32_t)(count) << 8 | (uint32_t)(opcode))

/* The operands of the header, an item that may stand first so that a file of words can be told from others: the magic
 * word, which is "NAGW" in a file, and the version of the words. */
#define NAGA_CHECK_MAGIC 0x5747414Eu
#define NAGA_CHECK_WORDS_VERSION 1u

/* The words of the header, for the beginning of an array. */
#define NAGA_CHECK_HEADER NAGA_CHECK_ITEM(NAGA_CHECK_OP_HEADER, 2), NAGA_CHECK_MAGIC, NAGA_CHECK_WORDS_VERSION

/* The opcodes of an expression of a function and of a global one, by the number of its form. */
#define NAGA_CHECK_EXPRESSION(form) ((uint32_t)NAGA_CHECK_OP_EXPRESSION + (uint32_t)(form))
#define NAGA_CHECK_GLOBAL_EXPRESSION(form) ((uint32_t)NAGA_CHECK_OP_GLOBAL_EXPRESSION + (uint32_t)(form))

/* 0, and an error at compile time if a constant condition doesn't hold. */
#ifdef __cplusplus
#define NAGA_CHECK_ZERO_IF_(condition) (0 * sizeof(char[(condition) ? 1 : -1]))
#else
#define NAGA_CHECK_ZERO_IF_(condition) (0 * sizeof(struct { unsigned is_true : (condition) ? 1 : -1; }))
#endif

/* What calls return. */
typedef uint32_t naga_check_status;
enum {
  NAGA_CHECK_OK = 0,           /* done: what was checked keeps its rules */
  NAGA_CHECK_REFUSED = 1,      /* the module breaks a rule; never that memory was refused */
  NAGA_CHECK_UNREADABLE = 2,   /* the text or the words can't be read */
  NAGA_CHECK_MEMORY = 3,       /* memory was refused: nothing is known of the module */
  NAGA_CHECK_ROOM = 4,         /* a buffer is too short for the results; a module was accepted, as with NAGA_CHECK_OK */
  NAGA_CHECK_NO_TYPE = 5,      /* the module was accepted, and has no type of an index that was asked about */
  NAGA_CHECK_LIMIT = 6,        /* there are more words, items or leaves than the options allow */
  NAGA_CHECK_OPTIONS = 7,      /* a field of the options has a value that means nothing to this version */
  NAGA_CHECK_SETTINGS = 8,     /* settings come with the module, and the options don't allow that */
  NAGA_CHECK_NOT_SHAREABLE = 9, /* the module was accepted, and hosts may not share values of the type */
  NAGA_CHECK_NOT_OPEN = 10      /* nothing was done: the module is not open */
};

/* What settings that come with a module, in its words or its text, are worth. */
enum {
  NAGA_CHECK_SETTINGS_REFUSED = 0, /* a module with settings is not validated: NAGA_CHECK_SETTINGS */
  NAGA_CHECK_SETTINGS_NARROW = 1   /* they narrow: what either says is validated, and what both allow may be used */
};

/* How a module is validated, and how much a call may take. */
typedef struct naga_check_options {
  uint32_t size;         /* sizeof(naga_check_options): another size is NAGA_CHECK_OPTIONS */
  uint32_t flags;        /* which parts are validated: NAGA_CHECK_VALIDATE_.. */
  uint64_t capabilities; /* what the module may use: NAGA_CHECK_CAPABILITY_.. */
  uint32_t resolved;     /* 1 if overrides have to have their values, else 0 */
  uint32_t settings;     /* NAGA_CHECK_SETTINGS_.. */
  uint64_t most_words;   /* the most words, or the most bytes of a text divided by four */
  uint64_t most_items;   /* the most items of words, or the most line ends of a text */
  uint64_t most_leaves;  /* the most leaves that a call may come to */
} naga_check_options;

/* The most leaves that a call comes to by default: a stranger's type may have more than a machine can count. */
#define NAGA_CHECK_MOST_LEAVES 0x1000000u

/* All is validated, as naga does by default, settings are refused, and nothing is limited but leaves. Options that are
 * all zero but for their size let nothing be read. */
#define NAGA_CHECK_OPTIONS_DEFAULT \
  { (uint32_t)sizeof(naga_check_options), NAGA_CHECK_VALIDATE_ALL, NAGA_CHECK_CAPABILITY_DEFAULT, 0, \
    NAGA_CHECK_SETTINGS_REFUSED, UINT64_MAX, UINT64_MAX, NAGA_CHECK_MOST_LEAVES }

/* The stage of a refusal: which item breaks a rule. */
enum {
  NAGA_CHECK_STAGE_NONE = 0,
  NAGA_CHECK_STAGE_HANDLE = 1,
  NAGA_CHECK_STAGE_LAYOUT = 2,
  NAGA_CHECK_STAGE_TYPE = 3,
  NAGA_CHECK_STAGE_GLOBAL_EXPRESSION = 4,
  NAGA_CHECK_STAGE_CONSTANT = 5,
  NAGA_CHECK_STAGE_OVERRIDE = 6,
  NAGA_CHECK_STAGE_FUNCTION = 7,
  NAGA_CHECK_STAGE_ENTRY_POINT = 8,
  NAGA_CHECK_STAGE_MODULE = 9,
  NAGA_CHECK_STAGE_GLOBAL_VARIABLE = 10,
  NAGA_CHECK_STAGE_DECLARATIONS = 11, /* of a function: its local variables, arguments and result */
  NAGA_CHECK_STAGE_INTERFACE = 12     /* of an entry point */
};

/* Kinds of items of a module. Expressions are those of the module and of functions. */
enum {
  NAGA_CHECK_ITEM_KIND_NONE = 0,
  NAGA_CHECK_ITEM_KIND_TYPE = 1,
  NAGA_CHECK_ITEM_KIND_CONSTANT = 2,
  NAGA_CHECK_ITEM_KIND_OVERRIDE = 3,
  NAGA_CHECK_ITEM_KIND_GLOBAL_VARIABLE = 4,
  NAGA_CHECK_ITEM_KIND_EXPRESSION = 5,
  NAGA_CHECK_ITEM_KIND_LOCAL_VARIABLE = 6,
  NAGA_CHECK_ITEM_KIND_FUNCTION = 7,
  NAGA_CHECK_ITEM_KIND_DIAGNOSTIC_FILTER_NODE = 8,
  NAGA_CHECK_ITEM_KIND_ENTRY_POINT = 9
};

/* What was found out about a module. With NAGA_CHECK_MEMORY, NAGA_CHECK_LIMIT, NAGA_CHECK_OPTIONS and
 * NAGA_CHECK_SETTINGS all fields are 0, except those that naga_check_leaves names. */
typedef struct naga_check_outcome {
  /* With NAGA_CHECK_UNREADABLE the index of the first word of the first item that can't be read, or the
   * number of words; of a text the number of the first line that can't be read, from 1. With NAGA_CHECK_REFUSED the
   * index of the item that is refused, among those of its kind; of the stage HANDLE the index that is dangling, the
   * index of the item that depends on a later one, or the start of the range. Else 0. */
  uint64_t index;
  uint64_t types;        /* how many types, functions and entry points the module has, if it could be read */
  uint64_t functions;
  uint64_t entry_points;
  uint64_t written;      /* how many elements were written to the caller's buffer */
  /* What the errors hold, outermost error first, then 0: docs/HOSTS.md says of each error what its values are. */
  uint64_t values[5];
  uint32_t stage;        /* NAGA_CHECK_STAGE_.. with NAGA_CHECK_REFUSED, else 0 */
  uint32_t kind;         /* the kind of the item of `index`, NAGA_CHECK_ITEM_KIND_.. with NAGA_CHECK_REFUSED, else 0 */
  uint32_t errors[4];    /* NAGA_CHECK_.._ERROR_.. of the stage, and the errors within it, outermost first, then 0 */
  uint32_t value_count;  /* how many values the errors hold */
  uint32_t expression;   /* of the stages FUNCTION and ENTRY_POINT the expression that is refused, else 0 */
} naga_check_outcome;

/* What is known of a type. Sizes and alignments are in bytes. */
typedef struct naga_check_type_info {
  uint32_t flags;             /* the sum of NAGA_CHECK_TYPE_.. */
  uint32_t size;
  uint32_t alignment;
  uint32_t uniform_alignment; /* in uniform buffers, or 0 if it has no layout there */
  uint32_t uniform_error;     /* then why: NAGA_CHECK_DISALIGNMENT_.., else 0 */
  uint32_t storage_alignment; /* the same in storage buffers */
  uint32_t storage_error;
  uint32_t immediates;        /* 1 if immediates may hold it, else 0 */
} naga_check_type_info;

/* A leaf of a type: a scalar, vector, matrix or atomic inside it. */
typedef struct naga_check_leaf {
  uint64_t first;       /* the place of its first byte */
  uint64_t path_at;     /* where its path begins in the buffer of paths */
  uint32_t path_length; /* the number of indexes of members and elements that lead to it */
  uint32_t size;        /* in bytes */
  uint32_t alignment;   /* in bytes */
  uint32_t query;       /* to which of the types that were asked about it belongs, from 0 */
} naga_check_leaf;

/* How many leaves and how many indexes of paths were written. */
typedef struct naga_check_counts {
  uint64_t leaves;
  uint64_t paths;
} naga_check_counts;

/* A module that was read and validated once, by naga_check_open, so that calls on it need not do so again. It is open or
 * closed; one that is open has memory of its own, which naga_check_close gives back. A host may copy and move it, and uses
 * one copy only. It stays on the thread that opened it, every call on it writes it, and nothing but calls may. */
typedef struct naga_check_module {
  void *at;
} naga_check_module;

/* A module that is closed. */
#define NAGA_CHECK_MODULE_CLOSED {NULL}

/* The version of this interface, NAGA_CHECK_ABI_VERSION. */
uint32_t naga_check_abi_version(void);

/* The exported functions. Each is described at the one of its name without _with, and takes no null pointer. */
naga_check_status naga_check_words_with(const uint32_t *words, size_t word_count, const naga_check_options *options,
                                        naga_check_type_info *infos, size_t info_count, naga_check_outcome *outcome);
naga_check_status naga_check_functions_with(const uint32_t *words, size_t word_count,
                                            const naga_check_options *options, uint32_t *stages, size_t stage_count,
                                            naga_check_outcome *outcome);
naga_check_status naga_check_declarations_with(const uint32_t *words, size_t word_count,
                                               const naga_check_options *options, naga_check_outcome *outcome);
naga_check_status naga_check_leaves_with(const uint32_t *words, size_t word_count, const naga_check_options *options,
                                         const uint32_t *types, size_t type_count, uint32_t length,
                                         naga_check_leaf *leaves, size_t leaf_count, uint32_t *paths,
                                         size_t path_count, naga_check_counts *counts, naga_check_outcome *outcome);
naga_check_status naga_check_count_leaves_with(const uint32_t *words, size_t word_count,
                                               const naga_check_options *options, const uint32_t *types,
                                               size_t type_count, uint32_t length, naga_check_counts *counts,
                                               naga_check_outcome *outcome);
naga_check_status naga_check_slots_with(const uint32_t *words, size_t word_count, const naga_check_options *options,
                                        uint32_t type, uint32_t offset, uint64_t *slots, naga_check_outcome *outcome);
naga_check_status naga_check_open_with(const uint32_t *words, size_t word_count, const naga_check_options *options,
                                       naga_check_module *module, naga_check_outcome *outcome);
naga_check_status naga_check_module_types_with(naga_check_module *module, naga_check_type_info *infos,
                                               size_t info_count, naga_check_outcome *outcome);
naga_check_status naga_check_module_functions_with(naga_check_module *module, uint32_t *stages, size_t stage_count,
                                                   naga_check_outcome *outcome);
naga_check_status naga_check_module_declarations_with(naga_check_module *module, naga_check_outcome *outcome);
naga_check_status naga_check_module_leaves_with(naga_check_module *module, const uint32_t *types, size_t type_count,
                                                uint32_t length, naga_check_leaf *leaves, size_t leaf_count,
                                                uint32_t *paths, size_t path_count, naga_check_counts *counts,
                                                naga_check_outcome *outcome);
naga_check_status naga_check_module_count_leaves_with(naga_check_module *module, const uint32_t *types,
                                                      size_t type_count, uint32_t length, naga_check_counts *counts,
                                                      naga_check_outcome *outcome);
naga_check_status naga_check_module_slots_with(naga_check_module *module, uint32_t type, uint32_t offset,
                                               uint64_t *slots, naga_check_outcome *outcome);
void naga_check_close_with(naga_check_module *module);
naga_check_status naga_check_text_with(const uint8_t *text, size_t text_count, const naga_check_options *options,
                                       naga_check_type_info *infos, size_t info_count, naga_check_outcome *outcome);
naga_check_status naga_check_report_with(const uint8_t *text, size_t text_count, uint8_t *report, size_t report_count,
                                         size_t *length);
size_t naga_check_error_text_with(const naga_check_outcome *outcome, uint8_t *buffer, size_t room);

/* These options, or the default ones. */
static inline naga_check_options naga_check_options_or_default(const naga_check_options *options) {
  const naga_check_options chosen = NAGA_CHECK_OPTIONS_DEFAULT;
  return options ? *options : chosen;
}

/* Validates a module in words: its handles, types, global expressions, constants and overrides. With
 * NAGA_CHECK_OK infos has the info of each type, unless info_count is 0. With NAGA_CHECK_ROOM the module is
 * accepted, no info is written, and outcome->types says how many there are. */
static inline naga_check_status naga_check_words(const uint32_t *words, size_t word_count,
                                                 const naga_check_options *options, naga_check_type_info *infos,
                                                 size_t info_count, naga_check_outcome *outcome) {
  const naga_check_options chosen = naga_check_options_or_default(options);
  const uint32_t no_words = 0;
  naga_check_type_info no_info;
  naga_check_outcome unwanted;
  return naga_check_words_with(words ? words : &no_words, word_count, &chosen, infos ? infos : &no_info, info_count,
                               outcome ? outcome : &unwanted);
}

/* Validates a module as naga_check_words does, except that it never leaves out constants, and then the
 * expressions of its functions in order, and of its entry points. With NAGA_CHECK_OK stages has the pipeline
 * stages that may use each function, and then each entry point, NAGA_CHECK_SHADER_STAGE_.., unless stage_count is 0.
 * With NAGA_CHECK_REFUSED it has those before the refused one, outcome->written of them, if it has room for all. With
 * NAGA_CHECK_ROOM all are accepted, and nothing is written; it has to have outcome->functions + outcome->entry_points
 * elements. */
static inline naga_check_status naga_check_functions(const uint32_t *words, size_t word_count,
                                                     const naga_check_options *options, uint32_t *stages,
                                                     size_t stage_count, naga_check_outcome *outcome) {
  const naga_check_options chosen = naga_check_options_or_default(options);
  const uint32_t no_words = 0;
  uint32_t no_stage;
  naga_check_outcome unwanted;
  return naga_check_functions_with(words ? words : &no_words, word_count, &chosen, stages ? stages : &no_stage,
                                   stage_count, outcome ? outcome : &unwanted);
}

/* Validates a module as naga_check_words does, except that it never leaves out constants; then its variables in order;
 * then the expressions of its functions and entry points, as naga_check_functions does; then what its functions declare
 * in order, and its entry points: of each function its local variables, its arguments and its result, and of each entry
 * point its inputs and outputs, and what its stage asks for. Without NAGA_CHECK_VALIDATE_STRUCT_LAYOUTS no variable is
 * asked for a layout, and without NAGA_CHECK_VALIDATE_BINDINGS none for a binding. outcome->written is 0. */
static inline naga_check_status naga_check_declarations(const uint32_t *words, size_t word_count,
                                                        const naga_check_options *options,
                                                        naga_check_outcome *outcome) {
  const naga_check_options chosen = naga_check_options_or_default(options);
  const uint32_t no_words = 0;
  naga_check_outcome unwanted;
  return naga_check_declarations_with(words ? words : &no_words, word_count, &chosen, outcome ? outcome : &unwanted);
}

/* Validates a module as naga_check_words does, and writes the leaves of types of it, those of types[0] first:
 * at which bytes hosts put values. A runtime-sized array counts as `length` elements. Leaves come in the
 * order of their paths. counts says how many were written: with NAGA_CHECK_OK all of them, with
 * NAGA_CHECK_ROOM the first ones, as many as there was room for, with NAGA_CHECK_LIMIT as many as the options allow,
 * with NAGA_CHECK_MEMORY maybe some, else none. outcome is as of naga_check_words, except that nothing was written;
 * if the module was accepted before memory was refused or the limit came, it has how many types, functions and
 * entry points there are. */
static inline naga_check_status naga_check_leaves(const uint32_t *words, size_t word_count,
                                                  const naga_check_options *options, const uint32_t *types,
                                                  size_t type_count, uint32_t length, naga_check_leaf *leaves,
                                                  size_t leaf_count, uint32_t *paths, size_t path_count,
                                                  naga_check_counts *counts, naga_check_outcome *outcome) {
  const naga_check_options chosen = naga_check_options_or_default(options);
  const uint32_t no_words = 0;
  naga_check_leaf no_leaf;
  uint32_t no_path;
  naga_check_counts unwanted_counts;
  naga_check_outcome unwanted;
  return naga_check_leaves_with(words ? words : &no_words, word_count, &chosen, types ? types : &no_words, type_count,
                                length, leaves ? leaves : &no_leaf, leaf_count, paths ? paths : &no_path, path_count,
                                counts ? counts : &unwanted_counts, outcome ? outcome : &unwanted);
}

/* Validates a module as naga_check_words does, and counts the leaves that naga_check_leaves writes, and the indexes of
 * their paths: so long have its buffers to be. Without NAGA_CHECK_OK both counts are 0. */
static inline naga_check_status naga_check_count_leaves(const uint32_t *words, size_t word_count,
                                                        const naga_check_options *options, const uint32_t *types,
                                                        size_t type_count, uint32_t length,
                                                        naga_check_counts *counts, naga_check_outcome *outcome) {
  const naga_check_options chosen = naga_check_options_or_default(options);
  const uint32_t no_words = 0;
  naga_check_counts unwanted_counts;
  naga_check_outcome unwanted;
  return naga_check_count_leaves_with(words ? words : &no_words, word_count, &chosen, types ? types : &no_words,
                                      type_count, length, counts ? counts : &unwanted_counts,
                                      outcome ? outcome : &unwanted);
}

/* Validates a module as naga_check_words does, and writes the slots of immediate data that a value of a type
 * uses from a byte on: bit k is 1 if the value has one of the bytes 4 * k to 4 * k + 3. Hosts have to be allowed to
 * share values of the type: the flags of its info have NAGA_CHECK_TYPE_HOST_SHAREABLE; else the call returns
 * NAGA_CHECK_NOT_SHAREABLE. Without NAGA_CHECK_OK it writes 0. outcome is as of naga_check_words, except that nothing
 * was written. */
static inline naga_check_status naga_check_slots(const uint32_t *words, size_t word_count,
                                                 const naga_check_options *options, uint32_t type, uint32_t offset,
                                                 uint64_t *slots, naga_check_outcome *outcome) {
  const naga_check_options chosen = naga_check_options_or_default(options);
  const uint32_t no_words = 0;
  uint64_t no_slots;
  naga_check_outcome unwanted;
  return naga_check_slots_with(words ? words : &no_words, word_count, &chosen, type, offset,
                               slots ? slots : &no_slots, outcome ? outcome : &unwanted);
}

/* Validates a module as naga_check_words does, and opens it if it is accepted: with NAGA_CHECK_OK module is open, and else
 * closed, also with NAGA_CHECK_MEMORY. What it was before is not looked at, so one that is open is closed first. The
 * words are needed no more then. outcome is as of naga_check_words, except that nothing was written. */
static inline naga_check_status naga_check_open(const uint32_t *words, size_t word_count,
                                                const naga_check_options *options, naga_check_module *module,
                                                naga_check_outcome *outcome) {
  const naga_check_options chosen = naga_check_options_or_default(options);
  const uint32_t no_words = 0;
  naga_check_module opened = NAGA_CHECK_MODULE_CLOSED;
  naga_check_outcome unwanted;
  const naga_check_status status = naga_check_open_with(words ? words : &no_words, word_count, &chosen, &opened,
                                                        outcome ? outcome : &unwanted);
  if (module) {
    *module = opened;
  } else {
    naga_check_close_with(&opened);
  }
  return status;
}

/* Closes a module, and gives back its memory. One that is closed, or a null pointer, is left as it is. */
static inline void naga_check_close(naga_check_module *module) {
  if (module) naga_check_close_with(module);
}

/* Writes what naga_check_words writes of the words that the module was opened with. This call and those that follow
 * return NAGA_CHECK_NOT_OPEN for a module that is closed, or a null pointer; outcome is 0 then, and so are counts. */
static inline naga_check_status naga_check_module_types(naga_check_module *module, naga_check_type_info *infos,
                                                        size_t info_count, naga_check_outcome *outcome) {
  naga_check_module closed = NAGA_CHECK_MODULE_CLOSED;
  naga_check_type_info no_info;
  naga_check_outcome unwanted;
  return naga_check_module_types_with(module ? module : &closed, infos ? infos : &no_info, info_count,
                                      outcome ? outcome : &unwanted);
}

/* Writes what naga_check_functions writes of the words that the module was opened with. Each call validates the
 * functions, and what they stand on, anew. */
static inline naga_check_status naga_check_module_functions(naga_check_module *module, uint32_t *stages,
                                                            size_t stage_count, naga_check_outcome *outcome) {
  naga_check_module closed = NAGA_CHECK_MODULE_CLOSED;
  uint32_t no_stage;
  naga_check_outcome unwanted;
  return naga_check_module_functions_with(module ? module : &closed, stages ? stages : &no_stage, stage_count,
                                          outcome ? outcome : &unwanted);
}

/* Writes what naga_check_declarations writes of the words that the module was opened with. Each call validates all of it
 * anew. */
static inline naga_check_status naga_check_module_declarations(naga_check_module *module,
                                                               naga_check_outcome *outcome) {
  naga_check_module closed = NAGA_CHECK_MODULE_CLOSED;
  naga_check_outcome unwanted;
  return naga_check_module_declarations_with(module ? module : &closed, outcome ? outcome : &unwanted);
}

/* Writes what naga_check_leaves writes of the words that the module was opened with, with the options of
 * naga_check_open. */
static inline naga_check_status naga_check_module_leaves(naga_check_module *module, const uint32_t *types,
                                                         size_t type_count, uint32_t length, naga_check_leaf *leaves,
                                                         size_t leaf_count, uint32_t *paths, size_t path_count,
                                                         naga_check_counts *counts, naga_check_outcome *outcome) {
  naga_check_module closed = NAGA_CHECK_MODULE_CLOSED;
  const uint32_t no_types = 0;
  naga_check_leaf no_leaf;
  uint32_t no_path;
  naga_check_counts unwanted_counts;
  naga_check_outcome unwanted;
  return naga_check_module_leaves_with(module ? module : &closed, types ? types : &no_types, type_count, length,
                                       leaves ? leaves : &no_leaf, leaf_count, paths ? paths : &no_path, path_count,
                                       counts ? counts : &unwanted_counts, outcome ? outcome : &unwanted);
}

/* Writes what naga_check_count_leaves writes of the words that the module was opened with, with the options of
 * naga_check_open. */
static inline naga_check_status naga_check_module_count_leaves(naga_check_module *module, const uint32_t *types,
                                                               size_t type_count, uint32_t length,
                                                               naga_check_counts *counts,
                                                               naga_check_outcome *outcome) {
  naga_check_module closed = NAGA_CHECK_MODULE_CLOSED;
  const uint32_t no_types = 0;
  naga_check_counts unwanted_counts;
  naga_check_outcome unwanted;
  return naga_check_module_count_leaves_with(module ? module : &closed, types ? types : &no_types, type_count, length,
                                             counts ? counts : &unwanted_counts, outcome ? outcome : &unwanted);
}

/* Writes what naga_check_slots writes of the words that the module was opened with. */
static inline naga_check_status naga_check_module_slots(naga_check_module *module, uint32_t type, uint32_t offset,
                                                        uint64_t *slots, naga_check_outcome *outcome) {
  naga_check_module closed = NAGA_CHECK_MODULE_CLOSED;
  uint64_t no_slots;
  naga_check_outcome unwanted;
  return naga_check_module_slots_with(module ? module : &closed, type, offset, slots ? slots : &no_slots,
                                      outcome ? outcome : &unwanted);
}

/* Validates a module in the text of docs/TEXT.md, and writes what naga_check_words writes of the module in words. */
static inline naga_check_status naga_check_text(const uint8_t *text, size_t text_count,
                                                const naga_check_options *options, naga_check_type_info *infos,
                                                size_t info_count, naga_check_outcome *outcome) {
  const naga_check_options chosen = naga_check_options_or_default(options);
  const uint8_t no_text = 0;
  naga_check_type_info no_info;
  naga_check_outcome unwanted;
  return naga_check_text_with(text ? text : &no_text, text_count, &chosen, infos ? infos : &no_info, info_count,
                              outcome ? outcome : &unwanted);
}

/* Writes the report on a text that the program naga_check prints, and its length in bytes. The text's own settings are
 * in force, and types are resolved as the program does, so this is for texts that a host wrote itself. Returns the exit
 * status of the program: NAGA_CHECK_OK, NAGA_CHECK_REFUSED or NAGA_CHECK_UNREADABLE. With NAGA_CHECK_ROOM nothing
 * but the length is written, and with NAGA_CHECK_MEMORY nothing. */
static inline naga_check_status naga_check_report(const uint8_t *text, size_t text_count, uint8_t *report,
                                                  size_t report_count, size_t *length) {
  const uint8_t no_text = 0;
  uint8_t no_report;
  size_t unwanted;
  return naga_check_report_with(text ? text : &no_text, text_count, report ? report : &no_report, report_count,
                                length ? length : &unwanted);
}

/* Writes naga's text of the errors of an outcome, as snprintf does: as much of it as there is room for before a 0, which
 * always ends it unless there is no room at all. Returns the length of the whole text in bytes, without the 0: the text
 * was cut if that is not less than the room. The text is one line without an end, in ASCII: which item breaks a rule,
 * and then, each after ": ", its error and the errors within that. Where naga's text shows a type or a name, which an
 * outcome doesn't have, it is left out. It is empty if nothing is refused; numbers that no call writes are
 * "unknown error" and "unknown". No memory is requested. */
static inline size_t naga_check_error_text(const naga_check_outcome *outcome, char *buffer, size_t room) {
  const naga_check_outcome no_outcome = {0, 0, 0, 0, 0, {0, 0, 0, 0, 0}, 0, 0, {0, 0, 0, 0}, 0, 0};
  char no_buffer;
  const size_t most = buffer && room ? room - 1 : 0;
  const size_t length = naga_check_error_text_with(outcome ? outcome : &no_outcome,
                                                   (uint8_t *)(buffer ? buffer : &no_buffer), most);
  if (buffer && room) buffer[length < most ? length : most] = 0;
  return length;
}

#ifdef __cplusplus
}
#endif

#endif

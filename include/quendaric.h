/* Quendaric: radix-4 SRT division through a table of quotient digits, and square roots, which use no table.
   For C99 or C++11, and later.

   The table. A table is 2,048 bytes. Byte 128 * row + column holds the quotient digit q as q + 2, so it is 0 to 4. The
   row is the four bits that follow the divisor's leading one. The column is t + 64, where t is the truncated estimate
   of the partial remainder: the top eight bits of the sum word and of the carry word are added modulo 256, the lowest
   bit of that sum is dropped, and the seven bits that are left are read as a signed number. Every call that divides or
   counts visits steps by this estimate of eight bits. The kept table is built into the archive and passes the check: a
   call whose name ends in _kept divides through it, and quendaric_make_table writes it.

   Dividers of seven bits. A divider may add the top seven bits of each word instead, modulo 128, and read that sum as
   signed. It leaves more of the remainder out, so it allows fewer digits: a table that passes for seven bits passes for
   eight too, and serves in every call here; the kept table passes for eight bits alone. A call whose name ends in _for,
   and each of the quendaric_affected_ calls, takes estimate_bits, the number of bits that the divider adds of each word,
   7 or 8, and speaks of that divider.

   Answers. Every call returns, and returns its answer by value. The first two fields of an answer are the refusal and
   its place. Refusal 0 means that the call did what its comment says. Invalid input returns a refusal number and an
   index, the place; all other fields are 0 and your buffers are unchanged (the check of a table also returns count,
   cell and witness with refusal 10). The place is 0 unless the refusal is 9, 10, 13 or 15. Test the refusal before you
   use another field: a quotient, a pattern or an order of 0 beside a refusal looks like an answer and is none. Where
   several refusals apply, the call returns the one that comes first in the order 17, 1, 2, 16, 3, 14, 15, 4 to 6, 11 to
   13, 7 to 10.

   Pointers. These are C's own rules, and no call tests them:
   - A pointer is valid for its length. With length 0 it is not read or written, and it may be NULL.
   - A list of uint32_t or uint64_t is aligned as such. A table or a buffer of bytes may have any address.
   - What a call writes overlaps nothing else that you pass to the same call. Each pointer that a call writes through is
     marked QUENDARIC_RESTRICT below, so that gcc -Wall warns where the same pointer is passed twice (-Wrestrict). An
     overlap is not refused: the call returns with refusal 0, and what it wrote may be wrong.
   What a call only reads may overlap: two operands may be one list.

   No call keeps a pointer, allocates memory or has state, so all calls are reentrant and may be made from any thread.

   Target. The archive of tools/archive is for x86-64 with the System V calling convention and a size_t of 64 bits. It
   needs no library and uses vector registers. cross/build makes archives for little-endian Arm, AArch64 and RISC-V from
   the same proved functions (docs/TARGETS.md). A call uses at most QUENDARIC_STACK bytes of stack below its caller's.
   dist/quendaric.c has the same calls as C99, for any other little-endian target or where there is no kit;
   dist/quendaric.h is include/quendaric.h with QUENDARIC_C99 defined and another QUENDARIC_STACK.

   Interrupts. The archive for x86-64 is compiled with System V's red zone: a call keeps values in the 128 bytes below
   its stack pointer. An interrupt that is taken on the same stack overwrites them; the call may then crash, or return a
   wrong answer with refusal 0. Where interrupts do not change the stack, as in firmware without a user mode, give each
   of them a stack of its own (an IST entry), or disable them during a call; an NMI, which cannot be disabled, needs its
   own stack. A Linux signal handler spares the red zone. quendaric.c has none if it is compiled with -mno-red-zone. */

#ifndef QUENDARIC_H
#define QUENDARIC_H

#if !defined(QUENDARIC_C99) &&                                                                                         \
    (defined(_WIN32) || defined(__CYGWIN__) || defined(__APPLE__) || __BYTE_ORDER__ != __ORDER_LITTLE_ENDIAN__ ||      \
     !(defined(__x86_64__) && !defined(__ILP32__) || defined(__ARM_EABI__) ||                                          \
       defined(__aarch64__) && !defined(__ILP32__) || defined(__riscv) && !defined(__riscv_abi_rve)))
#error "libquendaric.a is for x86-64 with System V calls, and as cross/build makes it for little-endian Arm, AArch64 and RISC-V; elsewhere take dist/quendaric.c with the header beside it"
#endif

/* Elsewhere than on x86-64 the calls have these names in the archive that cross/build makes: with the version, and on a
   Cortex-M with the instruction set. So an archive of another version than this header's, one for another Cortex-M, and
   one that was made otherwise of the same functions, so that its calls are not those of the target's C, cannot be
   linked. (A Cortex-M23 runs the archive for the M0, a Cortex-M55 that for the M33.) dist/quendaric.c, which your own
   compiler compiles, has the calls by their own names on every target. */
#if !defined(QUENDARIC_C99) && !defined(__x86_64__)
#if defined(__ARM_ARCH_6M__) || defined(__ARM_ARCH_8M_BASE__)
#define QUENDARIC_NAME(call) quendaric_cross_3_6_0_v6m_##call
#elif defined(__ARM_ARCH_7M__)
#define QUENDARIC_NAME(call) quendaric_cross_3_6_0_v7m_##call
#elif defined(__ARM_ARCH_7EM__)
#define QUENDARIC_NAME(call) quendaric_cross_3_6_0_v7em_##call
#elif defined(__ARM_ARCH_8M_MAIN__) || defined(__ARM_ARCH_8_1M_MAIN__)
#define QUENDARIC_NAME(call) quendaric_cross_3_6_0_v8m_##call
#else
#define QUENDARIC_NAME(call) quendaric_cross_3_6_0_##call
#endif
#define quendaric_check_cell QUENDARIC_NAME(check_cell)
#define quendaric_check_cell_for QUENDARIC_NAME(check_cell_for)
#define quendaric_check_table QUENDARIC_NAME(check_table)
#define quendaric_check_table_for QUENDARIC_NAME(check_table_for)
#define quendaric_row_limits QUENDARIC_NAME(row_limits)
#define quendaric_row_limits_for QUENDARIC_NAME(row_limits_for)
#define quendaric_make_table QUENDARIC_NAME(make_table)
#define quendaric_make_table_for QUENDARIC_NAME(make_table_for)
#define quendaric_repair_table QUENDARIC_NAME(repair_table)
#define quendaric_repair_table_for QUENDARIC_NAME(repair_table_for)
#define quendaric_run QUENDARIC_NAME(run)
#define quendaric_run_kept QUENDARIC_NAME(run_kept)
#define quendaric_step QUENDARIC_NAME(step)
#define quendaric_divide_whole QUENDARIC_NAME(divide_whole)
#define quendaric_divide_whole_kept QUENDARIC_NAME(divide_whole_kept)
#define quendaric_divide_binary64 QUENDARIC_NAME(divide_binary64)
#define quendaric_divide_binary64_kept QUENDARIC_NAME(divide_binary64_kept)
#define quendaric_divide_samples QUENDARIC_NAME(divide_samples)
#define quendaric_affected_samples QUENDARIC_NAME(affected_samples)
#define quendaric_affected_whole QUENDARIC_NAME(affected_whole)
#define quendaric_affected_run QUENDARIC_NAME(affected_run)
#define quendaric_average_windows QUENDARIC_NAME(average_windows)
#define quendaric_divide_packed QUENDARIC_NAME(divide_packed)
#define quendaric_count_visits QUENDARIC_NAME(count_visits)
#define quendaric_compare_ratios QUENDARIC_NAME(compare_ratios)
#define quendaric_root_whole QUENDARIC_NAME(root_whole)
#define quendaric_root_binary64 QUENDARIC_NAME(root_binary64)
#define quendaric_version_3_6_0 QUENDARIC_NAME(version_3_6_0)
#endif

#ifndef __cplusplus
#include <stdbool.h>
#endif
#include <stddef.h>
#include <stdint.h>

#if !defined(QUENDARIC_C99) && defined(__GNUC__) && defined(__x86_64__)
/* gcc -mabi=ms makes Microsoft's calls and defines no macro for them, but its va_list is a mere pointer. */
typedef char quendaric_wants_system_v_calls[sizeof(__builtin_va_list) == 24 ? 1 : -1];
#endif

/* Stands before a call: the compiler warns where its answer is ignored. */
#if defined(__cplusplus) ? __cplusplus >= 201703L : defined(__STDC_VERSION__) && __STDC_VERSION__ >= 202311L
#define QUENDARIC_ANSWER [[nodiscard]]
#elif defined(__GNUC__)
#define QUENDARIC_ANSWER __attribute__((warn_unused_result))
#else
#define QUENDARIC_ANSWER
#endif

/* Marks a pointer through which a call writes: what it points to overlaps nothing else that is passed to the call. */
#ifdef __GNUC__
#define QUENDARIC_RESTRICT __restrict
#elif defined(__cplusplus)
#define QUENDARIC_RESTRICT
#else
#define QUENDARIC_RESTRICT restrict
#endif

#ifdef __cplusplus
extern "C" {
#endif

/* The version of these calls. CHANGELOG.md says what changed in each. */
#define QUENDARIC_VERSION "3.6.0"
#define QUENDARIC_VERSION_MAJOR 3
#define QUENDARIC_VERSION_MINOR 6
#define QUENDARIC_VERSION_PATCH 0
/* The call that is named after it. On x86-64 each file that includes this header refers to it, elsewhere each call has
   the version in its name: with an archive of another version GNU's linkers end with an undefined reference. */
#define quendaric_version quendaric_version_3_6_0

#define QUENDARIC_TABLE_LENGTH 2048
#define QUENDARIC_MOST_DIGITS 28
#define QUENDARIC_WIDEST_WINDOW 4096

/* A call uses at most so many bytes of stack. That is promised and not proved. In brackets stands the most that was
   measured, over drawn operands, with tables that pass and with tables that are refused. */
#define QUENDARIC_STACK 1024 /* (616 measured) */

/* Refusals, in the words of docs/SPECIFICATION.md, section 18. D is the divisor, from 2^60 to 2^61 - 1, N the dividend,
   below 2^61, P the partial remainder. A bad cell holds a digit that can drive the remainder out of range. The maker of the
   table has to mend 8 to 10, the caller all others. */
#define QUENDARIC_REFUSED_CELL 1 /* row above 15 or column above 127 */
#define QUENDARIC_REFUSED_DIGITS 2 /* number of digits 0 or above 28; of an affected run, 0 or above 31 */
#define QUENDARIC_REFUSED_SPAN 3 /* D or N outside its span; of a step, D */
#define QUENDARIC_REFUSED_TOO_LARGE 4 /* a whole number is 2^60 or more */
#define QUENDARIC_REFUSED_BY_ZERO 5 /* a divisor is 0 */
#define QUENDARIC_REFUSED_DIRECTION 6 /* direction above 3 */
#define QUENDARIC_REFUSED_ROOM 7 /* a lent buffer or list ends before the last place to write, a given place beyond its
                                    end included */
#define QUENDARIC_REFUSED_LENGTH 8 /* the table's length is not 2,048 */
#define QUENDARIC_REFUSED_BYTE 9 /* a byte of the table is above 4; a single cell's byte is; place: the first such
                                    index; of a single cell 128 * r + c */
#define QUENDARIC_REFUSED_BAD_CELL 10 /* the table has a bad cell; place: the index of the first */
#define QUENDARIC_REFUSED_LISTS 11 /* the two input lists differ in length */
#define QUENDARIC_REFUSED_WIDTH 12 /* a window's width is 0, or more than 4,096, or more than there are readings */
#define QUENDARIC_REFUSED_READING 13 /* a reading is 2^40 or more; place: the first such index, in the list as handed
                                        in */
#define QUENDARIC_REFUSED_RANGE 14 /* 3P of a step is below -8D or above 8D */
#define QUENDARIC_REFUSED_DECIMAL 15 /* a half byte of a packed number is above 9; place: the first such byte, 0 to 7 in
                                        the dividend, 8 to 15 in the divisor */
#define QUENDARIC_REFUSED_BITS 16 /* number of significant bits 0 or above 6 */
#define QUENDARIC_REFUSED_ESTIMATE_BITS 17 /* number of bits of the estimate neither 7 nor 8 */

/* Rounding directions for binary64. */
#define QUENDARIC_NEAREST 0 /* to nearest, ties to even */
#define QUENDARIC_TOWARD_ZERO 1
#define QUENDARIC_UPWARD 2
#define QUENDARIC_DOWNWARD 3

/* IEEE 754 flags of binary64. The field flags is the sum of those that were raised. */
#define QUENDARIC_INEXACT 1
#define QUENDARIC_UNDERFLOW 2
#define QUENDARIC_OVERFLOW 4
#define QUENDARIC_DIVISION_BY_ZERO 8
#define QUENDARIC_INVALID 16

/* ---- Answers and calls, made by tools/prototypes from crates/quendaric/src/lib.rt: do not edit them here. */

/* allowed is 1 where the digit may stand in the cell and 0 where it may not. Where it may not, divisor and remainder
   are the least witness: a point of the cell, in units of 2^-60, from which the digit drives the remainder out of
   range. Otherwise both are 0. */
typedef struct {
  uint64_t refusal;
  uint64_t place;
  uint64_t allowed;
  uint64_t divisor;
  int64_t remainder;
} quendaric_cell;

/* count is the number of bad cells. row and column are those of the first bad cell, and divisor and remainder are the
   least witness against it. The table passed exactly when the refusal is 0. A count of 0 does not say so: with the
   refusals 8 and 9 no cell was examined, and the count is 0 too. */
typedef struct {
  uint64_t refusal;
  uint64_t place;
  uint64_t count;
  uint64_t row;
  uint64_t column;
  uint64_t divisor;
  int64_t remainder;
} quendaric_report;

/* limits holds the columns at which the digits -2, -1, 0, 1, 2 and then 0 again begin. */
typedef struct {
  uint64_t refusal;
  uint64_t place;
  uint8_t limits[6];
} quendaric_limits;

/* The table stands in the buffer. */
typedef struct {
  uint64_t refusal;
  uint64_t place;
} quendaric_made;

/* count is the number of cells that were changed. */
typedef struct {
  uint64_t refusal;
  uint64_t place;
  uint64_t count;
} quendaric_repaired;

/* digits is the number of digits that were written. */
typedef struct {
  uint64_t refusal;
  uint64_t place;
  uint64_t quotient;
  uint64_t remainder;
  uint64_t digits;
} quendaric_ran;

/* digit is from -2 to 2. sum and carry are the next two words. */
typedef struct {
  uint64_t refusal;
  uint64_t place;
  int64_t digit;
  uint64_t sum;
  uint64_t carry;
} quendaric_stepped;

/* a = quotient * b + remainder, with remainder < b. */
typedef struct {
  uint64_t refusal;
  uint64_t place;
  uint64_t quotient;
  uint64_t remainder;
} quendaric_whole;

/* pattern is the 64 bits of the result. */
typedef struct {
  uint64_t refusal;
  uint64_t place;
  uint64_t pattern;
  uint64_t flags;
} quendaric_binary64;

/* flags is the sum of the flags that at least one sample raised. count is the number of samples. */
typedef struct {
  uint64_t refusal;
  uint64_t place;
  uint64_t flags;
  uint64_t count;
} quendaric_samples;

/* count is the number of affected samples. */
typedef struct {
  uint64_t refusal;
  uint64_t place;
  uint64_t count;
} quendaric_affected_count;

/* affected is 1 where the division went wrong, else 0. */
typedef struct {
  uint64_t refusal;
  uint64_t place;
  uint64_t affected;
} quendaric_affected_mark;

/* The means and the remainders stand in the two lists. */
typedef struct {
  uint64_t refusal;
  uint64_t place;
} quendaric_averages;

/* quotient and remainder have sixteen decimal digits each, two in a byte. */
typedef struct {
  uint64_t refusal;
  uint64_t place;
  uint8_t quotient[8];
  uint8_t remainder[8];
} quendaric_packed;

/* The numbers of visits stand in the list. */
typedef struct {
  uint64_t refusal;
  uint64_t place;
} quendaric_visits;

/* order is -1 where a / b is less than c / d, 0 where the two are equal, and 1 where a / b is greater. */
typedef struct {
  uint64_t refusal;
  uint64_t place;
  int64_t order;
} quendaric_comparison;

/* remainder is a - root * root. */
typedef struct {
  uint64_t refusal;
  uint64_t place;
  uint64_t root;
  uint64_t remainder;
} quendaric_root;

/* Nothing but that the archive has the version of the call's name. */
typedef struct {
  uint64_t refusal;
  uint64_t place;
} quendaric_linked;

/* Examines one cell for a divider that adds eight bits: may the digit byte - 2 stand in it? That it may not is an
   ordinary answer, not a refusal. Writes nothing. Refuses 1, then 9 with the place 128 * row + column. */
QUENDARIC_ANSWER
quendaric_cell quendaric_check_cell(uint64_t row, uint64_t column, uint8_t byte);

/* Does the same for a divider that adds estimate_bits bits, 7 or 8. Refuses 17, 1, 9, in this order. */
QUENDARIC_ANSWER
quendaric_cell quendaric_check_cell_for(uint64_t estimate_bits, uint64_t row, uint64_t column, uint8_t byte);

/* Checks a table for a divider that adds eight bits. The table passed exactly when the refusal is 0. It may still be bad
   in a divider that adds seven: ask quendaric_check_table_for. Writes nothing. Refuses 8, 9, 10; with 10 alone the answer
   also has count, row, column and witness. */
QUENDARIC_ANSWER
quendaric_report quendaric_check_table(const uint8_t *table, size_t length);

/* Does the same for a divider that adds estimate_bits bits, 7 or 8. A table that passes for 7 passes for 8 too. Refuses
   17, 8, 9, 10, in this order. */
QUENDARIC_ANSWER
quendaric_report quendaric_check_table_for(uint64_t estimate_bits, const uint8_t *table, size_t table_length);

/* Returns the six columns at which the digits of a row of the kept table change. Writes nothing. Refuses 1. */
QUENDARIC_ANSWER
quendaric_limits quendaric_row_limits(uint64_t row);

/* Does the same for a row of the table that quendaric_make_table_for writes. Refuses 17, 1, in this order. */
QUENDARIC_ANSWER
quendaric_limits quendaric_row_limits_for(uint64_t estimate_bits, uint64_t row);

/* Writes the kept table: each cell gets the allowed digit that is nearest zero. It writes the first 2,048 bytes of the
   buffer and leaves later bytes as they are. Do not burn this table into a divider that adds only the top seven bits of
   each word: it is bad there. Refuses 7. */
QUENDARIC_ANSWER
quendaric_made quendaric_make_table(uint8_t *QUENDARIC_RESTRICT buffer, size_t length);

/* Writes the table for a divider that adds estimate_bits bits: 8 gives the kept table, 7 one that passes for either
   divider. Refuses 17, 7, in this order. */
QUENDARIC_ANSWER
quendaric_made quendaric_make_table_for(uint64_t estimate_bits, uint8_t *QUENDARIC_RESTRICT buffer,
                                        size_t buffer_length);

/* Repairs a table that was read back from a device. A bad cell, or a byte above 4, gets the digit of the kept table;
   every other byte is copied. The call writes the repaired table to the first 2,048 bytes of repaired and to those of
   changed a 1 for each cell that it changed and a 0 for each other; it leaves later bytes as they are. The repaired
   table passes the check, and no table that passes differs from the one read back in fewer cells. Both hold for a
   divider that adds eight bits: for one that adds seven a repaired table may be bad. Neither buffer may overlap the
   table or the other buffer, so a table cannot be repaired in place. Refuses 7, 8, and never 9 or 10. */
QUENDARIC_ANSWER
quendaric_repaired quendaric_repair_table(const uint8_t *table, size_t table_length,
                                          uint8_t *QUENDARIC_RESTRICT repaired, size_t repaired_length,
                                          uint8_t *QUENDARIC_RESTRICT changed, size_t changed_length);

/* Does the same for a divider that adds estimate_bits bits, 7 or 8: which cells are bad, the digit that a changed cell
   gets, and that the repaired table passes with the fewest changes are all for that divider. The digit is that of the
   table that quendaric_make_table_for writes. Refuses 17, 7, 8, in this order, and never 9 or 10. */
QUENDARIC_ANSWER
quendaric_repaired quendaric_repair_table_for(uint64_t estimate_bits, const uint8_t *table, size_t table_length,
                                              uint8_t *QUENDARIC_RESTRICT repaired, size_t repaired_length,
                                              uint8_t *QUENDARIC_RESTRICT changed, size_t changed_length);

/* Divides digit by digit through the table: a run. It computes 1 to 28 quotient digits of dividend / divisor, such that
   dividend * 4^(digits - 1) = quotient * divisor + remainder with remainder < divisor. The dividend is below 2^61, and
   the divisor is 2^60 or more and below 2^61. The call writes the digits, each as q + 2 and the first digit first, to
   buffer[place] to buffer[place + digits - 1] and writes no other byte. The buffer may not overlap the table. The call
   checks the table each time. Refuses 2, 3, 7, 8, 9, 10. */
QUENDARIC_ANSWER
quendaric_ran quendaric_run(const uint8_t *table, size_t table_length, uint64_t dividend, uint64_t divisor,
                            size_t digits, uint8_t *QUENDARIC_RESTRICT buffer, size_t buffer_length, size_t place);

/* Does the same through the kept table. Refuses 2, 3, 7. */
QUENDARIC_ANSWER
quendaric_ran quendaric_run_kept(uint64_t dividend, uint64_t divisor, size_t digits, uint8_t *QUENDARIC_RESTRICT buffer,
                                 size_t buffer_length, size_t place);

/* Makes one step of a run from any two words. The remainder P is sum + carry modulo 2^64, read as signed; the next two
   words add up to 4 * (P - digit * divisor). If you begin with sum = dividend and carry = 0 and pass each returned pair
   back with the same divisor and table, you get the digits of the run. The divisor is 2^60 or more and below 2^61.
   Writes nothing. The call checks the table each time. Refuses 3, 14, 8, 9, 10. */
QUENDARIC_ANSWER
quendaric_stepped quendaric_step(uint64_t sum, uint64_t carry, uint64_t divisor, const uint8_t *table,
                                 size_t table_length);

/* Divides whole numbers below 2^60 through the table: a = quotient * b + remainder with remainder < b. Writes nothing.
   The call checks the table each time. Refuses 4, 5, 8, 9, 10. */
QUENDARIC_ANSWER
quendaric_whole quendaric_divide_whole(const uint8_t *table, size_t table_length, uint64_t a, uint64_t b);

/* Does the same through the kept table. Refuses 4, 5. */
QUENDARIC_ANSWER
quendaric_whole quendaric_divide_whole_kept(uint64_t a, uint64_t b);

/* Divides two IEEE 754 binary64 numbers, given by their 64 bits, through the table and rounds once in the direction.
   The flags are IEEE 754's, with tininess detected before rounding. A NaN operand gives 7FF8000000000000, and the flag
   invalid exactly if an operand is a signalling NaN. Writes nothing. The call checks the table each time, whatever the
   operands. Refuses 6, 8, 9, 10; the pattern is then 0, which reads as 0.0, so test the refusal first. */
QUENDARIC_ANSWER
quendaric_binary64 quendaric_divide_binary64(const uint8_t *table, size_t table_length, uint64_t a, uint64_t b,
                                             uint64_t direction);

/* Does the same through the kept table. Refuses 6, with the pattern 0. */
QUENDARIC_ANSWER
quendaric_binary64 quendaric_divide_binary64_kept(uint64_t a, uint64_t b, uint64_t direction);

/* Divides a run of samples through a table that it checks once, also where the run is empty. concentrations[j] becomes
   the pattern that quendaric_divide_binary64 gives for currents[j] / sensitivities[j], for every j below
   currents_length; later words keep their contents. concentrations may overlap neither the table nor another list.
   Refuses 6, 11, 7, 8, 9, 10, in this order. */
QUENDARIC_ANSWER
quendaric_samples quendaric_divide_samples(const uint8_t *table, size_t table_length, const uint64_t *currents,
                                           size_t currents_length, const uint64_t *sensitivities,
                                           size_t sensitivities_length, uint64_t *QUENDARIC_RESTRICT concentrations,
                                           size_t concentrations_length, uint64_t direction);

/* Finds the records that a wrong table made wrong. The table is the one that was burned, with its bad cells: no byte of it
   is refused. estimate_bits is how many bits of each remainder word the divider adds that filed the records, 7 or 8: the
   two read different cells, so there is no default. The call writes affected[j] for every j below currents_length: 0 if
   each byte that 28 steps of currents[j] / sensitivities[j] read in this table is 4 or less and the quotient and remainder
   that these digits form are right, else 1. count is the number of ones. Where affected[j] is 0, the pattern and the flags
   that are formed from the burned table's own digits are those of IEEE 754, in every direction. Where it is 1, the
   quotient of the 28 digits is wrong, or a byte above 4 was read; rounded to a binary64 such a quotient may still be the
   right one. A sample with a zero, an infinity or a NaN takes no digit, and its mark is 0. All this is said of a divider
   that steps as this unit does and corrects by the sign of its last remainder. Later bytes of affected keep their
   contents. affected may overlap nothing else. Beside a refusal nothing is written, and a count of 0 does not say that no
   sample is affected. Refuses 17, 11, 7, 8, in this order. */
QUENDARIC_ANSWER
quendaric_affected_count quendaric_affected_samples(uint64_t estimate_bits, const uint8_t *table, size_t table_length,
                                                    const uint64_t *currents, size_t currents_length,
                                                    const uint64_t *sensitivities, size_t sensitivities_length,
                                                    uint8_t *QUENDARIC_RESTRICT affected, size_t affected_length);

/* Does the same for one division of whole numbers below 2^60: affected is 1 exactly if the quotient or the remainder of
   a / b, formed from the digits of the table as it was burned, is wrong, or a byte above 4 was read. This is for a divider
   that shifts its operands left as quendaric_divide_whole does and takes exactly (d + 1) / 2 + 1 digits, the half rounded
   down, where d is by how many bits a is longer than b, or 0 where it is not longer; for another one, as this unit was
   before version 2.2.2, take quendaric_affected_run. Writes nothing. Refuses 17, 4, 5, 8. */
QUENDARIC_ANSWER
quendaric_affected_mark quendaric_affected_whole(uint64_t estimate_bits, const uint8_t *table, size_t table_length,
                                                 uint64_t a, uint64_t b);

/* Does the same for one run of 1 to 31 digits: affected is 0 exactly if each byte that its steps read in the table as it
   was burned is 4 or less and the quotient and remainder that these digits form are those of
   dividend * 4^(digits - 1) / divisor, else 1. Dividend and divisor are those with which the divider begins, as in
   quendaric_run. Writes nothing. Refuses 17, then 2 where digits is 0 or above 31, then 3, 8. */
QUENDARIC_ANSWER
quendaric_affected_mark quendaric_affected_run(uint64_t estimate_bits, const uint8_t *table, size_t table_length,
                                               uint64_t dividend, uint64_t divisor, size_t digits);

/* Averages readings over a sliding window. The readings are parts per billion below 2^40. For every full window of
   width readings the call writes the mean, rounded down, and what rounding left over: means[j] * width + remainders[j]
   is the sum of the window's readings, with remainders[j] < width. The oldest window comes first, whichever way the
   readings are ordered: where newest_first is false, window j begins at readings[j]; where it is true, window j ends at
   readings[readings_length - 1 - j]. j goes from 0 to readings_length - width, and later words of both lists keep their
   contents. With one reading a second, fifteen minutes are a width of 900. The call divides through the kept table.
   means and remainders may overlap neither the readings nor each other: an average cannot replace its reading in place.
   Refuses 12, 13, 7, in this order; the place of 13 is an index of readings.
   Pass true or false for newest_first. C and C++ convert every number to one of the two, but another language can pass
   any byte. No proof speaks of a byte above 1; this archive goes by its lowest bit, so that an odd byte is true. */
QUENDARIC_ANSWER
quendaric_averages quendaric_average_windows(const uint64_t *readings, size_t readings_length, size_t width,
                                             bool newest_first, uint64_t *QUENDARIC_RESTRICT means, size_t means_length,
                                             uint64_t *QUENDARIC_RESTRICT remainders, size_t remainders_length);

/* Divides packed decimal numbers: sixteen digits in eight bytes, two in a byte, the higher digit in the high four bits,
   the first byte highest. dividend = quotient * divisor + remainder with remainder < divisor. Both pointers are valid
   for eight bytes, at any address, and not NULL; they may be the same. Writes nothing. The call divides through the
   kept table. Refuses 15 with the byte as its place, 0 to 7 in the dividend and 8 to 15 in the divisor; then 5. */
QUENDARIC_ANSWER
quendaric_packed quendaric_divide_packed(const uint8_t dividend[8], const uint8_t divisor[8]);

/* Counts how often each cell is met. It takes all 4^(bits - 1) pairs of operands that have exactly `bits` significant
   bits, 1 to 6, both with their leading one at bit 60, and runs `digits` digits, 1 to 28, of each pair through the
   table. visits[128 * row + column] becomes the number of these digits that were taken at that cell. The call writes
   the first 2,048 numbers, which add up to digits * 4^(bits - 1), and leaves later ones as they are. visits may not
   overlap the table. The call checks the table once. Refuses 2, 16, 7, 8, 9, 10, in this order. */
QUENDARIC_ANSWER
quendaric_visits quendaric_count_visits(const uint8_t *table, size_t table_length, uint64_t bits, size_t digits,
                                        uint32_t *QUENDARIC_RESTRICT visits, size_t visits_length);

/* Compares a / b with c / d for whole numbers below 2^60: as a * d compares with c * b, with nothing rounded, so that
   qsort may go by it. Writes nothing. The call divides through the kept table. Refuses 4, then 5 where b or d is 0. */
QUENDARIC_ANSWER
quendaric_comparison quendaric_compare_ratios(uint64_t a, uint64_t b, uint64_t c, uint64_t d);

/* Returns the whole square root of a number below 2^60: root * root <= a < (root + 1) * (root + 1). Writes nothing and
   uses no table. Refuses 4. */
QUENDARIC_ANSWER
quendaric_root quendaric_root_whole(uint64_t a);

/* Returns the IEEE 754 binary64 square root of a pattern, rounded once in the direction. A zero gives itself with its
   sign, and plus infinity gives itself. A number below zero, and minus infinity, gives 7FF8000000000000 and the flag
   invalid. A NaN gives 7FF8000000000000, and the flag invalid where it is signalling. For all others inexact is the
   only flag. Writes nothing and uses no table. Refuses 6, with the pattern 0. */
QUENDARIC_ANSWER
quendaric_binary64 quendaric_root_binary64(uint64_t a, uint64_t direction);

/* Does nothing, and refuses nothing. Its name has the version in it, and this header refers to it: a program that was
   compiled with the header of another version is not linked with this archive. */
QUENDARIC_ANSWER
quendaric_linked quendaric_version_3_6_0(void);

#ifdef __cplusplus
}
#endif

#if defined(__x86_64__) && defined(__ELF__) && !defined(QUENDARIC_C99)
/* A reference to the call that is named after the version, in an ELF note that takes no memory and is not left out by
   --gc-sections. With an archive of another version than this header's it is undefined: GNU's linkers then refuse. */
__asm__(".pushsection .note.quendaric,\"\",%note\n\t.balign 4\n\t.long 10, 8, 1\n\t.asciz \"quendaric\"\n\t.balign 4\n\t"
        ".quad quendaric_version_3_6_0\n\t.popsection");
#endif

/* Is this the pattern of a finite number, and not of an infinity or a NaN? It needs neither a library nor floating
   point. */
static inline bool quendaric_is_finite(uint64_t pattern) { return (pattern >> 52 & 0x7FF) != 0x7FF; }

/* The place of a number that is no NaN in the order of all numbers; both zeros have the place 0. */
static inline int64_t quendaric_rank(uint64_t pattern) {
  const int64_t size = (int64_t)(pattern & 0x7FFFFFFFFFFFFFFF);
  return pattern >> 63 != 0 ? -size : size;
}

/* Is this the pattern of a finite number from least to most? These two are patterns as well, and may be infinite. Where
   one of the three is a NaN, the answer is false. It needs neither a library nor floating point. */
static inline bool quendaric_is_within(uint64_t pattern, uint64_t least, uint64_t most) {
  const int64_t infinity = 0x7FF0000000000000;
  return quendaric_is_finite(pattern) && -infinity <= quendaric_rank(least) &&
         quendaric_rank(least) <= quendaric_rank(pattern) && quendaric_rank(pattern) <= quendaric_rank(most) &&
         quendaric_rank(most) <= infinity;
}

/* Is r, the answer of a division of the current a by the sensitivity b, a reading from least to most? True exactly if the
   call was not refused, a, b and the quotient are finite, b is above zero, no flag but inexact and underflow was raised,
   and the quotient lies from least to most (patterns, as in quendaric_is_within). Which sensitivities your cell can have,
   it does not know: one that is far too large gives a quotient near zero, as clean air does. Ask quendaric_is_within. */
static inline bool quendaric_reading(quendaric_binary64 r, uint64_t a, uint64_t b, uint64_t least, uint64_t most) {
  const uint64_t harmless = QUENDARIC_INEXACT | QUENDARIC_UNDERFLOW;
  return r.refusal == 0 && quendaric_is_finite(a) && quendaric_is_finite(b) && quendaric_rank(b) > 0 &&
         (r.flags & ~harmless) == 0 && quendaric_is_within(r.pattern, least, most);
}

/* The 64 bits of a double, and the double of 64 bits. Neither needs a library. */
static inline uint64_t quendaric_pattern(double number) {
#ifdef __cplusplus
  uint64_t pattern;
  __builtin_memcpy(&pattern, &number, sizeof pattern);
  return pattern;
#else
  const union {
    double number;
    uint64_t pattern;
  } both = {number};
  return both.pattern;
#endif
}

static inline double quendaric_double(uint64_t pattern) {
#ifdef __cplusplus
  double number;
  __builtin_memcpy(&number, &pattern, sizeof number);
  return number;
#else
  const union {
    uint64_t pattern;
    double number;
  } both = {pattern};
  return both.number;
#endif
}

#endif

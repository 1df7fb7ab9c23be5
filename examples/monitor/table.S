/* The burned table. TABLE names another file than the kept table's. */

#ifndef TABLE
#define TABLE "tables/kept.table"
#endif
	.section .rodata.board_table, "a"
	.globl board_table
board_table:
	.incbin TABLE
#ifdef __linux__
	.section .note.GNU-stack, ""
#endif

/* Has every table begin a line of the cache: one that crosses a line would make a loop slower by some 7 %. */
SECTIONS { .rodata.tables : SUBALIGN(64) { *(.rodata..L*) } } INSERT BEFORE .rodata;

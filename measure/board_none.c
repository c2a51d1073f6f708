/* Functions that do nothing, under the names of the board's. */
unsigned char board_start(void) { return 0; }
unsigned char board_byte(void) { return 0; }
unsigned char board_gap(void) { return 0; }
unsigned char board_step(void) { return 0; }
unsigned char board_unused(void) { return 0; }

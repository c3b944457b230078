/*
 * text.h: a block as lines of the report.
 */
#ifndef TEXT_H
#define TEXT_H

struct lines;
struct told;

void text_block(struct lines *to, const struct told *told);

/*
 * What the block says of the call, without frames, rule and help, a line each; and the whole block as a comment. The
 * caller frees them. NULL where there is no memory.
 */
char *text_message(const struct told *told);
char *text_comment(const struct told *told);

#endif

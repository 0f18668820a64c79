/* Checks the sizes of the structs and the offsets of their members, on which linked programs and the proved calls
 * rely. */
#ifndef LAYOUT_H
#define LAYOUT_H

#include "exports.h"

#define SIZE(type, size) _Static_assert(sizeof(type) == (size), "the size of " #type)
#define OFFSET(type, member, offset) _Static_assert(offsetof(type, member) == (offset), #member " of " #type)

SIZE(gix_mailmap_status, 4);
SIZE(gix_mailmap_kind, 4);
SIZE(gix_mailmap_format, 4);

SIZE(gix_mailmap_field, 16);
OFFSET(gix_mailmap_field, len, 0);
OFFSET(gix_mailmap_field, is_given, 8);

SIZE(gix_mailmap_listed, 72);
OFFSET(gix_mailmap_listed, start, 0);
OFFSET(gix_mailmap_listed, new_name, 8);
OFFSET(gix_mailmap_listed, new_email, 24);
OFFSET(gix_mailmap_listed, old_name, 40);
OFFSET(gix_mailmap_listed, old_email, 56);

SIZE(gix_mailmap_finding, 24);
OFFSET(gix_mailmap_finding, line, 0);
OFFSET(gix_mailmap_finding, kind, 8);
OFFSET(gix_mailmap_finding, beside, 16);

SIZE(gix_mailmap_named, 32);
OFFSET(gix_mailmap_named, name, 0);
OFFSET(gix_mailmap_named, name_len, 8);
OFFSET(gix_mailmap_named, text, 16);
OFFSET(gix_mailmap_named, text_len, 24);

SIZE(gix_mailmap_position, 16);
OFFSET(gix_mailmap_position, mailmap, 0);
OFFSET(gix_mailmap_position, line, 8);

SIZE(gix_mailmap_place, 16);
OFFSET(gix_mailmap_place, start, 0);
OFFSET(gix_mailmap_place, len, 8);

SIZE(gix_mailmap_mention, 40);
OFFSET(gix_mailmap_mention, name, 0);
OFFSET(gix_mailmap_mention, email, 16);
OFFSET(gix_mailmap_mention, count, 32);

SIZE(gix_mailmap_notice, 176);
OFFSET(gix_mailmap_notice, line, 0);
OFFSET(gix_mailmap_notice, other_line, 8);
OFFSET(gix_mailmap_notice, file, 16);
OFFSET(gix_mailmap_notice, level, 32);
OFFSET(gix_mailmap_notice, kind, 48);
OFFSET(gix_mailmap_notice, message, 64);
OFFSET(gix_mailmap_notice, other_file, 80);
OFFSET(gix_mailmap_notice, named, 96);
OFFSET(gix_mailmap_notice, beside, 136);

SIZE(gix_mailmap_cursor, 16);
OFFSET(gix_mailmap_cursor, start, 0);
OFFSET(gix_mailmap_cursor, lines, 8);

SIZE(gix_mailmap_parsed, 96);
OFFSET(gix_mailmap_parsed, line, 0);
OFFSET(gix_mailmap_parsed, kind, 8);
OFFSET(gix_mailmap_parsed, text, 16);
OFFSET(gix_mailmap_parsed, new_name, 32);
OFFSET(gix_mailmap_parsed, new_email, 48);
OFFSET(gix_mailmap_parsed, old_name, 64);
OFFSET(gix_mailmap_parsed, old_email, 80);

/* structs of the proved calls */
SIZE(struct gix_mailmap, 16);
OFFSET(struct gix_mailmap, at, 0);
OFFSET(struct gix_mailmap, is_open, 8);

SIZE(struct gix_mailmap_stream, 16);
OFFSET(struct gix_mailmap_stream, at, 0);
OFFSET(struct gix_mailmap_stream, is_open, 8);

SIZE(lengths, 16);
OFFSET(lengths, name, 0);
OFFSET(lengths, text, 8);

#endif

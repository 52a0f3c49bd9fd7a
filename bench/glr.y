/* The sample without its rules: GLR, where trees over the same words are kept as alternatives. With READ_ONLY the parser takes the line and
 * keeps no trees. */
%code requires {
#include "bench.h"

#include <stdlib.h>

/* A node or a word (production 0) with its parts, and one more tree over the same words. */
struct node {
    struct record record;
    const struct node *parts[3], *other;
};
typedef struct node *node_ref;
}
%glr-parser
%define api.pure
%define api.value.type {node_ref}
%param {struct cursor *cursor}

%code {
static int yylex(YYSTYPE *value, struct cursor *cursor);
static void yyerror(struct cursor *cursor, const char *message);
static node_ref node(uint8_t production, node_ref first, node_ref middle, node_ref last);
static node_ref both(node_ref one, node_ref two);
static node_ref root;
}

%token OR_ AND_ NOT_ LEFT_ RIGHT_ NAME_

%%
S: C                { root = $1; }
 ;
C: C OR_ C          %merge <both> { $$ = node(1, $1, $2, $3); }
 | C AND_ C         %merge <both> { $$ = node(2, $1, $2, $3); }
 | NOT_ C           %merge <both> { $$ = node(3, $1, NULL, $2); }
 | LEFT_ C RIGHT_   %merge <both> { $$ = node(4, $1, $2, $3); }
 | NAME_            %merge <both> { $$ = node(5, $1, NULL, NULL); }
 ;
%%

#define NODE_COUNT 1000000
static struct node nodes[NODE_COUNT];
static size_t node_count;

static node_ref new_node(void) {
    if (node_count == NODE_COUNT) {
        abort();
    }
    return &nodes[node_count++];
}

#ifdef READ_ONLY
static node_ref node(uint8_t production, node_ref first, node_ref middle, node_ref last) {
    (void)production;
    (void)middle;
    (void)last;
    return first;
}

static node_ref both(node_ref one, node_ref two) {
    (void)two;
    return one;
}
#else
static node_ref node(uint8_t production, node_ref first, node_ref middle, node_ref last) {
    node_ref made = new_node();
    const struct node *end = last == NULL ? first : last;
    *made = (struct node){{production, first->record.start, end->record.end}, {first, middle, last}, NULL};
    return made;
}

static node_ref both(node_ref one, node_ref two) {
    two->other = one;
    return two;
}

/* Writes the nodes of one of the trees. */
static void list(const struct node *tree, struct listing *out) {
    if (tree == NULL || tree->record.production == 0) {
        return;
    }
    out->records[out->count++] = tree->record;
    for (size_t i = 0; i < 3; i++) {
        list(tree->parts[i], out);
    }
}
#endif

static int yylex(YYSTYPE *value, struct cursor *cursor) {
    static const int tokens[KIND_COUNT] = {OR_, AND_, NOT_, LEFT_, RIGHT_, NAME_};
    if (cursor->at == cursor->line->words) {
        return 0;
    }
    node_ref word = new_node();
    *word = (struct node){{0, (uint8_t)cursor->at, (uint8_t)(cursor->at + 1)}, {NULL, NULL, NULL}, NULL};
    *value = word;
    return tokens[cursor->line->kinds[cursor->at++]];
}

static void yyerror(struct cursor *cursor, const char *message) {
    (void)cursor;
    (void)message;
}

#ifdef READ_ONLY
bool glr_read(enum grammar grammar, const struct line *line, struct listing *out) {
#else
bool glr_list(enum grammar grammar, const struct line *line, struct listing *out) {
#endif
    struct cursor cursor = {line, 0, out};
    (void)grammar;
    node_count = 0;
    out->count = 0;
    if (yyparse(&cursor) != 0) {
        return false;
    }
#ifndef READ_ONLY
    list(root, out);
#endif
    return true;
}

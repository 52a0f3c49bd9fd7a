/* The sample with its rules, as precedences: LALR(1). With READ_ONLY the parser takes the line and lists nothing. */
%code requires {
#include "bench.h"

/* The words of a node. */
struct span {
    uint8_t start, end;
};
}
%define api.pure full
%define api.value.type {struct span}
%param {struct cursor *cursor}

%code {
static int yylex(YYSTYPE *value, struct cursor *cursor);
static void yyerror(struct cursor *cursor, const char *message);
static struct span node(struct cursor *cursor, uint8_t production, struct span first, struct span last);
}

%token OR_ AND_ NOT_ LEFT_ RIGHT_ NAME_
%left OR_
%left AND_
%precedence NOT_

%%
C: C OR_ C          { $$ = node(cursor, 1, $1, $3); }
 | C AND_ C         { $$ = node(cursor, 2, $1, $3); }
 | NOT_ C           { $$ = node(cursor, 3, $1, $2); }
 | LEFT_ C RIGHT_   { $$ = node(cursor, 4, $1, $3); }
 | NAME_            { $$ = node(cursor, 5, $1, $1); }
 ;
%%

static struct span node(struct cursor *cursor, uint8_t production, struct span first, struct span last) {
    struct span span = {first.start, last.end};
#ifdef READ_ONLY
    (void)cursor;
    (void)production;
#else
    struct listing *out = cursor->out;
    out->records[out->count++] = (struct record){production, span.start, span.end};
#endif
    return span;
}

static int yylex(YYSTYPE *value, struct cursor *cursor) {
    static const int tokens[KIND_COUNT] = {OR_, AND_, NOT_, LEFT_, RIGHT_, NAME_};
    if (cursor->at == cursor->line->words) {
        return 0;
    }
    value->start = (uint8_t)cursor->at;
    value->end = (uint8_t)(cursor->at + 1);
    return tokens[cursor->line->kinds[cursor->at++]];
}

static void yyerror(struct cursor *cursor, const char *message) {
    (void)cursor;
    (void)message;
}

#ifdef READ_ONLY
bool lalr_read(enum grammar grammar, const struct line *line, struct listing *out) {
#else
bool lalr_list(enum grammar grammar, const struct line *line, struct listing *out) {
#endif
    struct cursor cursor = {line, 0, out};
    (void)grammar;
    out->count = 0;
    return yyparse(&cursor) == 0;
}

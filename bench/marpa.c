/*
 * libmarpa, on words that are already cut into kinds. Debian has it inside the library of the Perl package Marpa::R2, with all its calls
 * to be linked but without its header; so the declarations that are used stand here.
 *
 * libmarpa knows no priorities. With the rules, the grammar is in layers, as Marpa::R2 itself writes priorities: one symbol for each
 * level, and a rule from each level to the next.
 */
#include "bench.h"

struct marpa_value {
    int step_type, token_id, token_value, rule_id, arg_0, arg_n, result, token_start, rule_start, end;
};

typedef struct marpa_g *Marpa_Grammar;
typedef struct marpa_r *Marpa_Recognizer;
typedef struct marpa_b *Marpa_Bocage;
typedef struct marpa_o *Marpa_Order;
typedef struct marpa_t *Marpa_Tree;
typedef struct marpa_value *Marpa_Value;

enum { STEP_RULE = 1, STEP_INACTIVE = 5 };

Marpa_Grammar marpa_g_new(void *config);
int marpa_g_force_valued(Marpa_Grammar g);
int marpa_g_symbol_new(Marpa_Grammar g);
int marpa_g_rule_new(Marpa_Grammar g, int left, int *right, int length);
int marpa_g_start_symbol_set(Marpa_Grammar g, int symbol);
int marpa_g_precompute(Marpa_Grammar g);
void marpa_g_unref(Marpa_Grammar g);
Marpa_Recognizer marpa_r_new(Marpa_Grammar g);
int marpa_r_start_input(Marpa_Recognizer r);
int marpa_r_alternative(Marpa_Recognizer r, int symbol, int value, int length);
int marpa_r_earleme_complete(Marpa_Recognizer r);
void marpa_r_unref(Marpa_Recognizer r);
Marpa_Bocage marpa_b_new(Marpa_Recognizer r, int end);
void marpa_b_unref(Marpa_Bocage b);
int _marpa_b_top_or_node(Marpa_Bocage b);
int _marpa_b_or_node_first_and(Marpa_Bocage b, int or_node);
int _marpa_b_or_node_last_and(Marpa_Bocage b, int or_node);
int _marpa_b_and_node_predecessor(Marpa_Bocage b, int and_node);
int _marpa_b_and_node_cause(Marpa_Bocage b, int and_node);
Marpa_Order marpa_o_new(Marpa_Bocage b);
void marpa_o_unref(Marpa_Order o);
Marpa_Tree marpa_t_new(Marpa_Order o);
int marpa_t_next(Marpa_Tree t);
void marpa_t_unref(Marpa_Tree t);
Marpa_Value marpa_v_new(Marpa_Tree t);
int marpa_v_step(Marpa_Value v);
void marpa_v_unref(Marpa_Value v);

#define RULE_MOST 16
#define OR_NODE_MOST 65536

static Marpa_Grammar grammars[GRAMMAR_COUNT];
static int kinds[GRAMMAR_COUNT][KIND_COUNT];
/* The sample's production that a rule of the grammar is, or 0. */
static uint8_t productions[GRAMMAR_COUNT][RULE_MOST];

static bool add_rule(enum grammar g, uint8_t production, int left, int length, int *right) {
    int rule = marpa_g_rule_new(grammars[g], left, right, length);
    if (rule < 0 || rule >= RULE_MOST) {
        return false;
    }
    productions[g][rule] = production;
    return true;
}

static bool add_unit(enum grammar g, int left, int right) {
    return add_rule(g, 0, left, 1, (int[]){right});
}

static bool make(enum grammar g) {
    Marpa_Grammar m = grammars[g] = marpa_g_new(NULL);
    if (m == NULL || marpa_g_force_valued(m) < 0) {
        return false;
    }
    int *k = kinds[g];
    for (int i = 0; i < KIND_COUNT; i++) {
        k[i] = marpa_g_symbol_new(m);
    }
    int top = marpa_g_symbol_new(m);
    int low = top, middle = top, high = top;
    bool made = true;
    if (g == RULES) {
        low = marpa_g_symbol_new(m);
        middle = marpa_g_symbol_new(m);
        high = marpa_g_symbol_new(m);
        made = add_unit(g, top, low) && add_unit(g, low, middle) && add_unit(g, middle, high);
    }
    made = made
        && add_rule(g, 1, low, 3, (int[]){low, k[OR], middle})
        && add_rule(g, 2, middle, 3, (int[]){middle, k[AND], high})
        && add_rule(g, 3, high, 2, (int[]){k[NOT], high})
        && add_rule(g, 4, high, 3, (int[]){k[LEFT], top, k[RIGHT]})
        && add_rule(g, 5, high, 1, (int[]){k[NAME]});
    return made && marpa_g_start_symbol_set(m, top) >= 0 && marpa_g_precompute(m) >= 0;
}

bool marpa_open(void) {
    return make(RULES) && make(NO_RULES);
}

/* A grammar that is made, and its end. */
bool marpa_grammar(enum grammar grammar, const struct line *line, struct listing *out) {
    (void)line;
    (void)out;
    Marpa_Grammar kept = grammars[grammar];
    bool made = make(grammar);
    marpa_g_unref(grammars[grammar]);
    grammars[grammar] = kept;
    return made;
}

/* A recognizer that has taken the words, or none. */
static Marpa_Recognizer recognized(enum grammar grammar, const struct line *line, size_t words) {
    Marpa_Recognizer r = marpa_r_new(grammars[grammar]);
    if (r == NULL || marpa_r_start_input(r) < 0) {
        return NULL;
    }
    for (size_t i = 0; i < words; i++) {
        if (marpa_r_alternative(r, kinds[grammar][line->kinds[i]], 1, 1) != 0 || marpa_r_earleme_complete(r) < 0) {
            return NULL;
        }
    }
    return r;
}

/* A recognizer that takes no words. */
bool marpa_start(enum grammar grammar, const struct line *line, struct listing *out) {
    (void)out;
    Marpa_Recognizer r = recognized(grammar, line, 0);
    if (r == NULL) {
        return false;
    }
    marpa_r_unref(r);
    return true;
}

bool marpa_read(enum grammar grammar, const struct line *line, struct listing *out) {
    (void)out;
    Marpa_Recognizer r = recognized(grammar, line, line->words);
    if (r == NULL) {
        return false;
    }
    marpa_r_unref(r);
    return true;
}

/* Writes the nodes of the first tree of the bocage. */
static bool list_first(enum grammar grammar, Marpa_Bocage b, struct listing *out) {
    Marpa_Order o = marpa_o_new(b);
    Marpa_Tree t = marpa_t_new(o);
    if (marpa_t_next(t) < 0) {
        return false;
    }
    Marpa_Value v = marpa_v_new(t);
    out->count = 0;
    for (int step = marpa_v_step(v); step != STEP_INACTIVE; step = marpa_v_step(v)) {
        if (step < 0) {
            return false;
        }
        uint8_t production = step == STEP_RULE ? productions[grammar][v->rule_id] : 0;
        if (production != 0) {
            out->records[out->count++] = (struct record){production, (uint8_t)v->rule_start, (uint8_t)v->end};
        }
    }
    marpa_v_unref(v);
    marpa_t_unref(t);
    marpa_o_unref(o);
    return true;
}

/* How many trees an or-node has. The counts that are known stand in the table, 0 for those that are not. */
static uint32_t count_trees(Marpa_Bocage b, int or_node, uint32_t *known) {
    if (known[or_node] != 0) {
        return known[or_node];
    }
    uint32_t sum = 0;
    int last = _marpa_b_or_node_last_and(b, or_node);
    for (int and_node = _marpa_b_or_node_first_and(b, or_node); and_node <= last; and_node++) {
        int predecessor = _marpa_b_and_node_predecessor(b, and_node);
        int cause = _marpa_b_and_node_cause(b, and_node);
        uint32_t before = predecessor < 0 ? 1 : count_trees(b, predecessor, known);
        uint32_t under = cause < 0 ? 1 : count_trees(b, cause, known);
        sum = add_trees(sum, multiply_trees(before, under));
    }
    known[or_node] = sum;
    return sum;
}

static bool count_all(enum grammar grammar, Marpa_Bocage b, struct listing *out) {
    static uint32_t known[OR_NODE_MOST];
    (void)grammar;
    if (_marpa_b_or_node_first_and(b, OR_NODE_MOST) >= 0) {
        return false;
    }
    int top = _marpa_b_top_or_node(b);
    out->trees = count_trees(b, top, known);
    for (int i = 0; i < OR_NODE_MOST && _marpa_b_or_node_first_and(b, i) >= 0; i++) {
        known[i] = 0;
    }
    return true;
}

static bool with_bocage(enum grammar grammar, const struct line *line, struct listing *out,
                        bool (*use)(enum grammar, Marpa_Bocage, struct listing *)) {
    Marpa_Recognizer r = recognized(grammar, line, line->words);
    if (r == NULL) {
        return false;
    }
    Marpa_Bocage b = marpa_b_new(r, -1);
    if (b == NULL || !use(grammar, b, out)) {
        return false;
    }
    marpa_b_unref(b);
    marpa_r_unref(r);
    return true;
}

bool marpa_list(enum grammar grammar, const struct line *line, struct listing *out) {
    return with_bocage(grammar, line, out, list_first);
}

bool marpa_count(enum grammar grammar, const struct line *line, struct listing *out) {
    return with_bocage(grammar, line, out, count_all);
}
